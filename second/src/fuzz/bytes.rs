//! Records written to bytes, and copies in bytes (Q1.1 to Q1.9), on what is set aside. The
//! checks take bytes out of words by shifts, and ask the copies in words.

use super::{Fuzz, Words};
use crate::answer::Refusal;
use crate::copy::Copy;
use crate::reader::{reader_replay, reader_value, record_bytes};
use crate::sizes::*;

impl Fuzz {
    /// A record that some call wrote, at times with one word changed.
    fn some_record(&mut self) -> Words {
        let logs = self.logs.iter().flat_map(|log| &log.records);
        let all: Vec<&Words> = match self.random.chance(20) {
            true => logs.collect(),
            false => self.stream.iter().collect(),
        };
        let mut words = self.random.pick(&all).cloned().unwrap_or_default();
        if !words.is_empty() && self.random.chance(30) {
            let place = self.random.below(words.len() as u64) as usize;
            let word = words[place];
            words[place] = match self.random.below(3) {
                0 => self.random.any_width(),
                1 => word ^ 1,
                _ => word.wrapping_add(1 << 61),
            };
        }
        words
    }

    /// A record is written to its own bytes and to no buffer of another length, and what no
    /// copy in words takes is written to none.
    pub(super) fn written_record(&mut self) -> Result<(), String> {
        let words = self.some_record();
        let due = 8 * words.len() as u64;
        let room = match self.random.below(10) {
            0 => due + 8,
            1 => self.random.below(due + 9),
            2 => due.saturating_sub(1),
            _ => due,
        };
        let blank = vec![self.random.word() as u8; room as usize];
        let mut out = blank.clone();
        let refused = record_bytes(&words, &mut out).err();
        self.counted("record bytes", refused);
        let possible = Copy::start().replay(&words) != Err(Refusal::Impossible);
        let taken = possible && room == due;
        let left = if taken { laid(&words) } else { blank };
        match refused == (!taken).then_some(Refusal::Impossible) && out == left {
            true => Ok(()),
            false => Err(format!("{words:?} to {room} bytes gave {refused:?}")),
        }
    }

    /// A copy in bytes takes what the copy in words takes, and answers the same.
    pub(super) fn byte_copy(&mut self) -> Result<(), String> {
        let (words, number) = (self.some_record(), self.random.below(COPIES as u64));
        let mut copy = self.world.copies[number as usize].clone();
        if self.random.chance(30) {
            copy = Copy::start();
        }
        let mut bytes = laid_copy(&copy);
        let given = reader_replay(&mut bytes, &laid(&words)).err();
        self.counted("byte replay", given);
        let due = copy.replay(&words).err();
        if given != due || bytes != laid_copy(&copy) {
            return Err(format!("{words:?} in bytes gave {given:?}, in words {due:?}"));
        }
        let (key, mut answer) = (self.random.below(KEYS + 2), vec![0xA5; 32]);
        let given = reader_value(&bytes, key, &mut answer).err();
        self.counted("byte value", given);
        let due = copy.value(key);
        let left = due.map_or(vec![0xA5; 32], |(value, pair)| {
            laid(&[value.start, value.length, pair.number, pair.coordinator])
        });
        match given == due.err() && answer == left {
            true => Ok(()),
            false => Err(format!("key {key} in bytes gave {given:?}, in words {due:?}")),
        }
    }
}

fn laid(words: &[u64]) -> Vec<u8> {
    words.iter().flat_map(|word| (0..8).map(move |place| (word >> (8 * place)) as u8)).collect()
}

fn laid_copy(copy: &Copy) -> Vec<u8> {
    let values = copy.values.iter().flat_map(|value| value.words());
    let words: Words =
        [copy.last.number, copy.last.coordinator].into_iter().chain(values).collect();
    laid(&words)
}
