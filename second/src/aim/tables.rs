//! Random tables of first keys, good and bad (Q3.3).

use std::collections::BTreeSet;

use crate::random::Random;
use crate::sizes::*;
use crate::table::even;

impl Random {
    /// First keys of a good table: mostly uneven, at times with a site of one key.
    pub fn firsts(&mut self, sites: u64) -> Vec<u64> {
        let mut firsts = match self.below(8) {
            0 if is_site(sites, SITES as u64) => even(sites),
            1 => (0..sites).collect(),
            2 => std::iter::once(0).chain(KEYS + 1 - sites..KEYS).collect(),
            _ => self.ascending(sites),
        };
        if sites > 1 && self.chance(40) {
            self.one_key(&mut firsts);
        }
        firsts
    }

    /// 0, then others of which each is above the one before it.
    fn ascending(&mut self, sites: u64) -> Vec<u64> {
        let most = [KEYS, KEYS, KEYS, 64, 300][self.below(5) as usize];
        let mut firsts = BTreeSet::from([0]);
        while (firsts.len() as u64) < sites {
            firsts.insert(self.below(most));
        }
        firsts.into_iter().collect()
    }

    /// Some site, at times the last, is left one key.
    fn one_key(&mut self, firsts: &mut [u64]) {
        let place = self.below(firsts.len() as u64) as usize;
        if place + 1 == firsts.len() {
            firsts[place] = KEYS - 1;
        } else if firsts.get(place + 2).is_none_or(|&next| firsts[place] + 1 < next) {
            firsts[place + 1] = firsts[place] + 1;
        }
    }

    /// First keys with one fault.
    pub fn bad_firsts(&mut self, sites: u64) -> Vec<u64> {
        let mut firsts = self.firsts(sites);
        let above = [KEYS, KEYS, KEYS + 1, 1 << 32, u64::MAX][self.below(5) as usize];
        let last = firsts.len() - 1;
        if last == 0 {
            return vec![self.pick(&[1, 255, 256, KEYS - 1, above]).unwrap_or(1)];
        }
        let place = self.below(last as u64) as usize;
        match self.below(4) {
            0 => firsts[0] = self.between(1, firsts[1]),
            1 => firsts[place + 1] = firsts[place],
            2 => firsts.swap(place, place + 1),
            _ => firsts[last] = above,
        }
        firsts
    }
}
