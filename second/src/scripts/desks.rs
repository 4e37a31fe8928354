//! Scenes at the limits of a part's sets of keys, by desk (Q10.4, Q10.5).

use super::Generator;
use crate::desk::{Desk, DESKS};
use crate::sizes::*;

impl Generator {
    /// A transaction for either desk that takes all the keys that it may have, at its
    /// coordinator and at another site.
    pub(super) fn wide_sets(&mut self) {
        let desk = DESKS[self.random.below(2) as usize];
        let site = self.any_site();
        let other = self.other_site(site);
        let Some(transaction) = self.begin_for(site, desk) else { return };
        self.fill(site, transaction, desk);
        if other != site && self.random.chance(60) {
            self.tell("enlist", &[transaction, other]);
            self.take_all();
            self.fill(other, transaction, desk);
        }
        self.tell("commit", &[transaction]);
        self.take_all();
        self.install_all();
    }

    /// So many keys pass, one more does not, where the site has so many. Known ones still
    /// do, and after them a new one does not; of 18 keys read, 16 pass.
    fn fill(&mut self, site: u64, transaction: u64, desk: Desk) {
        let key = self.round(site);
        let limit = desk.written_keys() as u64;
        let reads_first = self.random.chance(50);
        for place in 0..limit + 2 {
            if reads_first {
                self.tell("read", &[site, transaction, key(place)]);
            }
            if self.random.chance(97) {
                let value = self.fresh_value();
                self.write_at(site, transaction, key(place), value);
            }
        }
        for _ in 0..self.random.between(1, 5) {
            let known = key(self.random.below(limit));
            let value = self.fresh_value();
            self.write_at(site, transaction, known, value);
            self.tell("read", &[site, transaction, known]);
        }
        let value = self.fresh_value();
        self.write_at(site, transaction, key(limit + 2), value);
        if self.random.chance(50) {
            for place in 0..SET_KEYS as u64 + 2 {
                self.tell("read", &[site, transaction, key(limit + 2 + place)]);
            }
        }
    }
}
