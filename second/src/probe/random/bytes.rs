//! Random records written to bytes (Q1.8, Q1.9): emitted ones, parts and states, some that
//! are made up, and whatever is in hand. Some are changed before.

use super::Maker;
use crate::probe::written::BYTES;
use crate::reader::WORD_BYTES;
use crate::record::MERGED;
use crate::sizes::*;

impl Maker {
    pub(super) fn bytes(&mut self) {
        match self.random.below(10) {
            0..=3 => {
                let count = self.replayed.iter().max().map_or(1, |taken| taken + 1);
                let place = self.random.between(1, count);
                if !self.say(format!("record 0 {place}")) {
                    self.made_up();
                }
            }
            4 => {
                let site = self.random.between(1, self.sites());
                let place = self.random.between(1, self.merged[site as usize - 1] + 1);
                self.say(format!("record {site} {place}"));
            }
            5..=8 => self.made_up(),
            _ => {}
        }
        let held = self.probe.hand.words().len() as u64;
        if held > 0 && self.random.chance(20) {
            self.forge();
        }
        let room = self.bytes_for(self.probe.hand.words().len() as u64);
        self.say(format!("bytes {room}"));
    }

    /// A merged record of up to 130 writes, of which 128 are possible.
    fn made_up(&mut self) {
        let number = self.random.any_width();
        let serial = self.random.between(1, 3);
        let transaction = transaction_number(self.random.between(1, SITES as u64), serial);
        self.say(format!("form {MERGED} 0 {number} {transaction}"));
        let mask = self.random.below(1 << SITES);
        self.say(format!("word 6 {mask}"));
        let most = MERGED_WRITES as u64;
        let count = match self.random.below(8) {
            0 => return,
            1 => self.random.between(most - 2, most + 2),
            2 => self.random.between(1, most),
            _ => self.random.between(1, 6),
        };
        let key = match self.random.below(3) {
            0 => KEYS - count,
            1 => self.random.below(KEYS - count),
            _ => self.random.between(KEYS - count - 1, KEYS),
        };
        let value = self.random.value();
        self.say(format!("writes {count} {key} {} {}", value.start, value.length));
    }

    /// The buffer for so many words: mostly eight times as many bytes.
    fn bytes_for(&mut self, words: u64) -> u64 {
        let due = WORD_BYTES as u64 * words;
        match self.random.below(16) {
            0 => due.saturating_sub(1),
            1 => due + 1,
            2 => due + WORD_BYTES as u64,
            3 => due.saturating_sub(WORD_BYTES as u64),
            4 => words,
            5 => [0, BYTES, BYTES + 1, u64::MAX][self.random.below(4) as usize],
            _ => due,
        }
    }
}
