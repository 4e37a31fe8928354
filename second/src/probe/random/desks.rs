//! Random desks: begins and JOINs for both desks and for none, sets filled to their
//! limits, desks and counts of written keys poked.

use super::Maker;
use crate::desk::{Desk, DESKS};
use crate::message::Kind;
use crate::site::Part;
use crate::sizes::*;

/// Numbers around which the limits of both desks lie.
const COUNTS: [u64; 4] = [4, 5, 16, 17];

impl Maker {
    pub(super) fn begin(&mut self, site: u64) -> bool {
        match self.random.below(20) {
            0 => {
                let desk = self.no_desk();
                self.say(format!("begin {site} {desk}"))
            }
            1..=3 => self.say(format!("begin {site} 0")),
            4..=10 => self.say(format!("begin {site}")),
            _ => self.say(format!("begin {site} 1")),
        }
    }

    fn no_desk(&mut self) -> u64 {
        [2, 2, 2, 12, 1 << 32, u64::MAX][self.random.below(6) as usize]
    }

    /// Another desk in a JOIN that is in hand.
    pub(super) fn forge_desk(&mut self) {
        if self.probe.hand.words().get(1) != Some(&(Kind::Join as u64)) {
            return;
        }
        let desk = match self.random.below(4) {
            0 => self.no_desk(),
            _ => self.random.below(3),
        };
        self.say(format!("word 7 {desk}"));
    }

    /// New keys up to the limit of a part's desk and one more, then known ones; at
    /// times reads of 17 keys.
    pub(super) fn fill(&mut self) {
        let Some((site, part)) = self.held() else { return };
        if !part.is_active() && self.random.chance(80) {
            return;
        }
        let (transaction, limit) = (part.transaction, part.desk.written_keys() as u64);
        let range = self.table_of(site).keys(site);
        let count = range.end - range.start;
        let first = self.random.below(count);
        let key = |place: u64| range.start + (first + place) % count;
        for place in 0..=limit {
            self.write(site, transaction, key(place));
        }
        for _ in 0..self.random.between(1, 4) {
            let known = key(self.random.below(limit));
            self.write_long(site, transaction, known);
            self.say(format!("read {site} {transaction} {known}"));
        }
        self.write_long(site, transaction, key(limit + 1));
        if self.random.chance(30) {
            for place in 0..=SET_KEYS as u64 {
                self.say(format!("read {site} {transaction} {}", key(limit + place)));
            }
        }
    }

    /// Another desk, another count of written keys, or both. A possible desk stays;
    /// all else is set back, the count first.
    pub(super) fn desk(&mut self, site: u64, part: &Part) {
        let (poke, own) = (format!("live {site} {}", part.transaction), part.desk.number());
        let written = part.footprint.writes.len() as u64;
        let desk = if self.random.chance(30) { own } else { self.random.below(3) };
        self.say(format!("{poke} 10 {desk}"));
        let allows =
            |count: u64| Desk::of(desk).is_some_and(|desk| count <= desk.written_keys() as u64);
        let count = COUNTS[self.random.below(4) as usize];
        if self.random.chance(60) && !allows(count) {
            self.say(format!("{poke} 9 {count}"));
            self.some_calls(site, part.transaction);
            self.say(format!("{poke} 9 {written}"));
        }
        self.some_calls(site, part.transaction);
        if !allows(written) {
            self.say(format!("{poke} 10 {own}"));
        }
    }

    /// The last lines of a probe: a place that is freed with an impossible desk, or
    /// with more keys than its desk allows, stops its site for good.
    pub(super) fn free_past_the_sizes(&mut self) {
        let Some((site, part)) = self.held() else { return };
        let poke = format!("live {site} {}", part.transaction);
        let desk = DESKS[self.random.below(2) as usize];
        match self.random.below(3) {
            0 => drop(self.say(format!("{poke} 10 2"))),
            1 => drop(self.say(format!("{poke} 10 {}", desk.number()))),
            _ => drop(self.say(format!("{poke} 9 17"))),
        }
        self.say(format!("{poke} 2 0"));
        for _ in 0..3 {
            self.some_calls(site, part.transaction);
        }
    }
}
