//! Where a random call goes: mostly somewhere possible, now and then not.

mod bookmarks;
mod tables;
mod values;

use std::ops::Range;

use crate::random::Random;
use crate::site::Site;
use crate::sizes::*;
use crate::table::Table;

impl Random {
    pub fn site(&mut self, sites: u64) -> u64 {
        match self.below(60) {
            0 => self.between(0, SITES as u64 + 1),
            _ => self.between(1, sites),
        }
    }

    /// A live part with its site; in two of so many cases at a wrong site, or none.
    pub fn part<'a>(
        &mut self,
        sites: impl ExactSizeIterator<Item = &'a Site>,
        cases: u64,
    ) -> (u64, u64) {
        let site = self.site(sites.len() as u64);
        let live: Vec<(u64, u64)> = sites
            .flat_map(|site| site.live.iter().map(|part| (site.own, part.transaction)))
            .collect();
        let strange = transaction_number(site, self.below(4));
        let (own, transaction) = self.pick(&live).unwrap_or((site, strange));
        match self.below(cases) {
            0 => (site, strange),
            1 => (site, transaction),
            _ => (own, transaction),
        }
    }

    /// One of so many keys from a site's first on, or one around the edges of its range;
    /// now and then any.
    pub fn key(&mut self, table: &Table, site: u64, keys: u64) -> u64 {
        if !is_site(site, table.sites) {
            return self.below(KEYS + 1);
        }
        let range = table.keys(site);
        match self.below(30) {
            0 => self.word(),
            1 => self.below(KEYS + 1),
            2 => self.edge(range),
            3..=5 => self.own_edge(range),
            _ => range.start + self.below(keys.min(range.end - range.start)),
        }
    }

    /// The first or the last key of a range.
    pub fn own_edge(&mut self, range: Range<u64>) -> u64 {
        if self.chance(50) {
            range.start
        } else {
            range.end - 1
        }
    }

    /// A key on either side of an edge of a range, or of the last key of all.
    pub fn edge(&mut self, range: Range<u64>) -> u64 {
        let before = range.start.checked_sub(1).unwrap_or(u64::MAX);
        let edges = [before, before, range.start, range.end - 1, range.end, KEYS - 1, KEYS];
        edges[self.below(edges.len() as u64) as usize]
    }
}
