//! Records that are damaged on the way: in their words, in their bytes, in their length. Some
//! stay merged records all the same.

use super::records::bytes;
use super::Maker;
use crate::reader::WORD_BYTES;
use crate::record::{PART, STATE};
use crate::room::line::MOST_RECORD;
use crate::sizes::*;

const LENGTH: usize = 0;
const KIND: usize = 1;
const SITE: usize = 2;
const COUNT: usize = 7;
const OFFSET: usize = 8;

impl Maker {
    /// Mostly of a pair that the copy would take, else of one that it would not.
    pub(super) fn damaged(&mut self) {
        let pair = self.next_pair();
        let mut words = self.words_of(pair);
        if self.random.chance(15) {
            words[3] = self.random.any_width().min(self.room.pair()[0]);
        }
        let mut record = match self.random.below(12) {
            0..=1 => bytes(&self.with_other_length(words)),
            2 => bytes(&self.with_other_header(words)),
            3 => bytes(&self.with_other_keys(words)),
            4 => bytes(&self.with_long_value(words)),
            5 => bytes(&self.of_other_kind(words)),
            6 => bytes(&self.with_more_or_fewer_words(words)),
            _ => self.with_other_bytes(bytes(&words)),
        };
        record.truncate(MOST_RECORD);
        self.replay(&record);
    }

    /// Word 0: beside its own, one whose eightfold wraps, or any.
    fn with_other_length(&mut self, mut words: Vec<u64>) -> Vec<u64> {
        let own = words[LENGTH];
        words[LENGTH] = match self.random.below(7) {
            0 => own + 1,
            1 => own - 1,
            2 => own * WORD_BYTES as u64,
            3 => own + (1 << self.random.between(8, 63)),
            4 => self.random.any_width(),
            _ => own + (self.random.between(1, 7) << 61),
        };
        words
    }

    /// One word of the header.
    fn with_other_header(&mut self, mut words: Vec<u64>) -> Vec<u64> {
        let place = self.random.between(KIND as u64, OFFSET as u64) as usize;
        let own = words[place];
        words[place] = match self.random.below(6) {
            0 => own.wrapping_add(1),
            1 => own.wrapping_sub(1),
            2 => own ^ (1 << self.random.below(64)),
            3 => 0,
            4 => self.random.below(300),
            _ => self.random.any_width(),
        };
        words
    }

    /// A key that is too high, equal to the one before, or out of turn.
    fn with_other_keys(&mut self, mut words: Vec<u64>) -> Vec<u64> {
        let writes = words[COUNT];
        if writes == 0 {
            return self.with_other_header(words);
        }
        let last = RECORD_HEADER + WRITE_WORDS * (writes as usize - 1);
        let one = RECORD_HEADER + WRITE_WORDS * self.random.below(writes) as usize;
        match self.random.below(5) {
            0 => words[last] = KEYS,
            1 => words[one] = self.random.any_width(),
            2 => words[one] += 1,
            3 => words[one] = words[last],
            _ => words.swap(one, last),
        }
        words
    }

    fn with_long_value(&mut self, mut words: Vec<u64>) -> Vec<u64> {
        let writes = words[COUNT];
        if writes == 0 {
            return self.with_other_header(words);
        }
        let at = RECORD_HEADER + WRITE_WORDS * self.random.below(writes) as usize;
        let start = self.random.word();
        words[at + 1..][..VALUE_WORDS].copy_from_slice(&self.random.long_value(start).words());
        words
    }

    /// A part, a state, a record of no kind, or a message.
    fn of_other_kind(&mut self, mut words: Vec<u64>) -> Vec<u64> {
        let site = self.random.between(1, SITES as u64);
        match self.random.below(4) {
            0 => (words[KIND], words[SITE]) = (PART, site),
            1 => {
                words.truncate(RECORD_HEADER);
                (words[LENGTH], words[KIND], words[SITE]) = (9, STATE, site);
                words[SITE + 2..].fill(0);
            }
            2 => words[KIND] = self.random.any_width(),
            _ => {
                words.truncate(RECORD_HEADER);
                words.push(0);
                (words[LENGTH], words[KIND], words[SITE]) = (10, 1, site);
            }
        }
        words
    }

    /// Words cut off or added, with word 0 and the count as they were or as they ought to be.
    fn with_more_or_fewer_words(&mut self, mut words: Vec<u64>) -> Vec<u64> {
        let by = [1, 1, 2, WRITE_WORDS as u64, RECORD_HEADER as u64][self.random.below(5) as usize];
        match self.random.below(4) {
            0 => words.truncate(words.len().saturating_sub(by as usize)),
            1 => words.extend((0..by).map(|one| KEYS - 1 + one)),
            2 => {
                words.remove(self.random.below(words.len() as u64) as usize);
            }
            _ => {
                let write = [KEYS - 1, 5, 0];
                let all = (MERGED_WRITES as u64 + by) as usize;
                let short = all.saturating_sub(words[COUNT] as usize);
                words.extend(write.into_iter().cycle().take(WRITE_WORDS * short));
            }
        }
        if self.random.chance(60) && words.len() >= RECORD_HEADER {
            let writes = (words.len() - RECORD_HEADER) / WRITE_WORDS;
            words[LENGTH] = words.len() as u64;
            words[COUNT] = writes as u64;
            words[OFFSET] = if writes == 0 { 0 } else { RECORD_HEADER as u64 };
        }
        words
    }

    /// One byte changed, cut off or added; the string cut anywhere, or in another order.
    fn with_other_bytes(&mut self, mut bytes: Vec<u8>) -> Vec<u8> {
        let place = self.random.below(bytes.len() as u64) as usize;
        match self.random.below(12) {
            0..=3 => bytes[place] ^= 1 << self.random.below(8),
            4 => bytes[place] ^= 0xFF,
            5 => drop(bytes.pop()),
            6 => drop(bytes.remove(place)),
            7 => bytes.push(self.random.word() as u8),
            8 => bytes.insert(place, self.random.word() as u8),
            9 => bytes.truncate(place),
            10 => bytes.reverse(),
            _ => bytes.chunks_exact_mut(WORD_BYTES).for_each(<[u8]>::reverse),
        }
        bytes
    }
}
