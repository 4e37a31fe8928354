//! The opening of a script, good and bad tables in it (Q3.7), and keys by their ranges.

use std::ops::Range;

use super::Generator;
use crate::sizes::*;

impl Generator {
    /// Lines before the house stands, and `sites`.
    pub(super) fn opening(&mut self) {
        if self.random.chance(15) {
            for _ in 0..self.random.between(1, 4) {
                let lines = ["begin 1", "sites 0", "sites 9", "emit", "value 1 5", "", "take 1 1"];
                let line = lines[self.random.below(lines.len() as u64) as usize];
                let _ = self.line(line);
            }
        }
        if self.random.chance(25) {
            for _ in 0..self.random.between(1, 6) {
                self.bad_sites();
            }
        }
        let firsts = self.profile.firsts.clone().unwrap_or_default();
        self.sites_line(self.profile.sites, &firsts);
    }

    fn sites_line(&mut self, sites: u64, firsts: &[u64]) {
        self.tell("sites", &[&[sites], firsts].concat());
    }

    /// A bad table, another count of first keys, or both; else no number of sites.
    fn bad_sites(&mut self) {
        let sites = self.random.between(1, SITES as u64);
        let kind = self.random.below(8);
        let count = match kind {
            0 | 2 => sites + 1,
            1 | 3 => (sites - 1).max(1),
            _ => sites,
        };
        let firsts = match kind {
            0 | 1 => self.random.firsts(count),
            _ => self.random.bad_firsts(count),
        };
        match kind {
            1 | 3 if sites == 1 => self.sites_line(2, &firsts),
            4 => {
                let none = [0, 9, u64::MAX][self.random.below(3) as usize];
                self.sites_line(none, &firsts);
            }
            _ => self.sites_line(sites, &firsts),
        }
    }

    /// The keys of a site.
    pub(super) fn range(&self, site: u64) -> Range<u64> {
        self.running().world.merger.table.keys(site)
    }

    /// A key of a site, of those that the profile uses or at an edge.
    pub(super) fn key_of(&mut self, site: u64) -> u64 {
        let range = self.range(site);
        match self.random.chance(15) {
            true => self.random.own_edge(range),
            false => {
                let used = self.profile.keys.min(range.end - range.start);
                range.start + self.random.below(used)
            }
        }
    }

    /// Keys of a site that follow one another round its range, from any on.
    pub(super) fn round(&mut self, site: u64) -> impl Fn(u64) -> u64 {
        let range = self.range(site);
        let count = range.end - range.start;
        let first = self.random.below(count);
        move |place| range.start + (first + place) % count
    }
}
