//! Random merged records: any number of writes, masks and transactions of any possible kind.

use std::collections::BTreeSet;

use super::Maker;
use crate::answer::Pair;
use crate::record::{write_save, Save, MERGED};
use crate::sizes::*;
use crate::value::Value;

impl Maker {
    /// A record that the copy takes.
    pub(super) fn next_record(&mut self) -> Vec<u8> {
        let pair = self.next_pair();
        self.record_of(pair)
    }

    pub(super) fn record_of(&mut self, pair: Pair) -> Vec<u8> {
        bytes(&self.words_of(pair))
    }

    pub(super) fn words_of(&mut self, pair: Pair) -> Vec<u64> {
        let save = Save {
            pair,
            transaction: transaction_number(pair.coordinator, self.serial()),
            participants: self.mask(pair.coordinator),
            writes: self.write_keys().into_iter().map(|key| (key, self.fitting())).collect(),
        };
        self.keys = save.writes.iter().map(|&(key, _)| key).collect();
        let mut words = vec![0; MERGED_BUFFER];
        let length = write_save(&mut words, MERGED, 0, &save);
        words.truncate(length);
        words
    }

    fn serial(&mut self) -> u64 {
        match self.random.below(4) {
            0 => 1,
            1 => LAST_SERIAL,
            2 => self.random.between(1, 300),
            _ => self.random.between(1, LAST_SERIAL),
        }
    }

    fn mask(&mut self, coordinator: u64) -> u64 {
        match self.random.below(4) {
            0 => site_bit(coordinator),
            1 => (1 << SITES) - 1,
            2 => 0,
            _ => self.random.below(1 << SITES),
        }
    }

    /// Near one another or anywhere, the first and the last key now and then.
    fn write_keys(&mut self) -> BTreeSet<u64> {
        let most = MERGED_WRITES as u64;
        let count = match self.random.below(50) {
            0..=3 => 0,
            4..=18 => 1,
            19..=36 => self.random.between(2, 4),
            37..=44 => self.random.between(5, 16),
            45..=47 => self.random.between(17, most),
            48 => most - 1,
            _ => most,
        };
        let range = match self.random.below(3) {
            0 => KEYS,
            _ => self.random.between(count.max(4), 3 * count + 8).min(KEYS),
        };
        let first = self.random.below(KEYS - range + 1);
        let mut keys = BTreeSet::new();
        while (keys.len() as u64) < count {
            keys.insert(match self.random.below(40) {
                0 => 0,
                1 => KEYS - 1,
                _ => first + self.random.below(range),
            });
        }
        keys
    }

    /// A value that does not fit is cut to end at 2^64 − 1.
    fn fitting(&mut self) -> Value {
        let value = self.random.value();
        Value::new(value.start, value.length.min(u64::MAX - value.start))
    }
}

pub(super) fn bytes(words: &[u64]) -> Vec<u8> {
    words.iter().flat_map(|word| word.to_le_bytes()).collect()
}
