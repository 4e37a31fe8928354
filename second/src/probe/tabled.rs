//! The first keys that a probe lends at the starts of sites and merger.

use crate::sizes::*;
use crate::table;

/// One word more than the largest house has sites.
const WORDS: usize = SITES + 1;

#[derive(Clone, Debug)]
pub struct Lending {
    pub words: [u64; WORDS],
    /// How many are lent, where a line says so; else as many as the house has sites.
    pub length: Option<u64>,
}

impl Default for Lending {
    fn default() -> Self {
        let mut words = [KEYS; WORDS];
        words[..SITES].copy_from_slice(&table::even(SITES as u64));
        Lending { words, length: None }
    }
}

impl Lending {
    /// Places count from 1; there is no other to set.
    pub fn set(&mut self, place: u64, first: u64) {
        if is_site(place, WORDS as u64) {
            self.words[place as usize - 1] = first;
        }
    }

    pub fn firsts(&self, sites: u64) -> &[u64] {
        let length = self.length.unwrap_or(sites).min(WORDS as u64);
        &self.words[..length as usize]
    }
}
