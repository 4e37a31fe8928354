//! The house table: the first key of each site (Q3.1 to Q3.6).

use std::ops::Range;

use crate::answer::{require, Refusal};
use crate::sizes::*;

/// Keys from one site to the next where nothing else is said (Q3.7).
const EVEN_KEYS: u64 = KEYS / SITES as u64;

/// A start gives a good one. A caller may hand in any numbers, which `is_possible` tells.
#[derive(Clone, Copy, PartialEq, Eq, Debug)]
pub struct Table {
    /// Number of sites of the house.
    pub sites: u64,
    /// By site; 0 behind the sites.
    pub firsts: [u64; SITES],
}

/// Q3.3: the first is 0, each other is above the one before it, none is above 2,047.
pub fn is_good(firsts: &[u64]) -> bool {
    firsts.first() == Some(&0)
        && firsts.windows(2).all(|two| two[0] < two[1])
        && firsts.iter().all(|&first| first < KEYS)
}

/// Q3.7: 0, 256 and so on, for a house of at most eight sites.
pub fn even(sites: u64) -> Vec<u64> {
    (0..sites.min(SITES as u64)).map(|place| place * EVEN_KEYS).collect()
}

impl Table {
    /// Q3.4: an impossible number of sites and another count of first keys go before a
    /// bad table.
    pub fn start(sites: u64, firsts: &[u64]) -> Result<Self, Refusal> {
        let fits = is_site(sites, SITES as u64) && firsts.len() as u64 == sites;
        require(fits, Refusal::Impossible)?;
        require(is_good(firsts), Refusal::BadTable)?;
        let mut table = Table { sites, firsts: [0; SITES] };
        table.firsts[..firsts.len()].copy_from_slice(firsts);
        Ok(table)
    }

    /// Q3.5: what a later state may have.
    pub fn is_possible(&self) -> bool {
        is_site(self.sites, SITES as u64) && {
            let (firsts, behind) = self.firsts.split_at(self.sites as usize);
            is_good(firsts) && behind.iter().all(|&word| word == 0)
        }
    }

    /// Q3.1: where a key lives; nowhere if it is above 2,047.
    pub fn site_of(&self, key: u64) -> Option<u64> {
        (1..=self.sites).find(|&site| self.keys(site).contains(&key))
    }

    /// Q3.2: the keys of a site of the house, the last one's to 2,047.
    pub fn keys(&self, site: u64) -> Range<u64> {
        let first = self.firsts[site as usize - 1];
        let end = if site == self.sites { KEYS } else { self.firsts[site as usize] };
        first..end
    }
}
