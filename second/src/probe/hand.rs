//! The words in hand, which message, merge and replay hand in, and the messages
//! and records that calls wrote.

use super::line::Line;
use crate::house::messages;
use crate::sizes::*;
use crate::value::Value;

const HAND: usize = 1_200;
const STORE: usize = 131_072;
/// Words before an item of the store.
const LABEL: usize = 2;
/// More entries, and more writes, than any message or record has.
const ENTRIES: u64 = 380;
const WRITES: u64 = 140;

pub struct Hand {
    words: Vec<u64>,
    held: usize,
    letters: Vec<Vec<u64>>,
    records: Vec<Vec<u64>>,
    used: usize,
}

impl Hand {
    pub fn new() -> Self {
        Hand { words: vec![0; HAND], held: 0, letters: vec![], records: vec![], used: 0 }
    }

    pub fn words(&self) -> &[u64] {
        &self.words[..self.held]
    }

    /// Every message that was kept.
    pub fn letters(&self) -> &[Vec<u64>] {
        &self.letters
    }

    fn has_room(&mut self, item: &[u64]) -> bool {
        let fits = self.used + LABEL + item.len() <= STORE;
        if fits {
            self.used += LABEL + item.len();
        }
        fits
    }

    pub fn keep_record(&mut self, written: &[u64]) {
        if !written.is_empty() && self.has_room(written) {
            self.records.push(written.to_vec());
        }
    }

    pub fn keep_letters(&mut self, written: &[u64]) {
        for message in messages(written) {
            if self.has_room(message) {
                self.letters.push(message.to_vec());
            }
        }
    }

    /// Obeys a line on the words in hand; whether what it asks for is there.
    pub fn shape(&mut self, line: &Line) -> bool {
        match (line.verb.as_str(), line.numbers.as_slice()) {
            ("letter", &[from, to, number]) => {
                let ends = [from, to, number];
                let found = self.letters.iter().rfind(|words| words[2..5] == ends).cloned();
                return self.load(found);
            }
            ("record", &[site, count]) => {
                let mut records = self.records.iter().filter(|words| words[2] == site);
                let found = records.nth(count.saturating_sub(1) as usize).cloned();
                return self.load(found);
            }
            ("word", &[place, value]) => self.put(place as usize, value),
            ("cut", &[length]) => self.held = length.min(HAND as u64) as usize,
            ("head", &[kind, from, to, channel]) => {
                self.fill(&[10, kind, from, to, channel, 0, 0, 0, 0, 0])
            }
            ("form", &[kind, site, number, transaction]) => {
                let coordinator = coordinator_of(transaction);
                self.fill(&[9, kind, site, number, coordinator, transaction, 0, 0, 0]);
            }
            ("entries", &[count, transaction, participants, mark]) => {
                self.entries(count, transaction, participants, mark);
            }
            ("writes", &[count, key, start, length]) => {
                self.writes(count, key, Value::new(start, length));
            }
            _ => unreachable!("a line for the words in hand"),
        }
        true
    }

    fn load(&mut self, found: Option<Vec<u64>>) -> bool {
        let Some(words) = found else { return false };
        if words.len() <= HAND {
            self.fill(&words);
        }
        true
    }

    fn fill(&mut self, words: &[u64]) {
        self.words[..words.len()].copy_from_slice(words);
        self.held = words.len();
    }

    fn put(&mut self, place: usize, value: u64) {
        if let Some(word) = self.words.get_mut(place) {
            *word = value;
        }
    }

    /// Entries of transactions that ascend by 1, with count and offset.
    fn entries(&mut self, count: u64, transaction: u64, participants: u64, mark: u64) {
        if count > ENTRIES {
            self.held = 0;
            return;
        }
        for one in 0..count {
            let at = MESSAGE_HEADER + ENTRY_WORDS * one as usize;
            let entry = [transaction.wrapping_add(one), participants, mark];
            self.words[at..at + ENTRY_WORDS].copy_from_slice(&entry);
        }
        self.held = MESSAGE_HEADER + ENTRY_WORDS * count as usize;
        self.words[0] = self.held as u64;
        self.words[8] = count;
        self.words[9] = MESSAGE_HEADER as u64;
    }

    /// Writes of keys and starts that ascend by 1 and of one length, with count and offset.
    fn writes(&mut self, count: u64, key: u64, value: Value) {
        if count > WRITES {
            self.held = 0;
            return;
        }
        for one in 0..count {
            let at = RECORD_HEADER + WRITE_WORDS * one as usize;
            let write = [key.wrapping_add(one), value.start.wrapping_add(one), value.length];
            self.words[at..at + WRITE_WORDS].copy_from_slice(&write);
        }
        self.held = RECORD_HEADER + WRITE_WORDS * count as usize;
        self.words[0] = self.held as u64;
        self.words[7] = count;
        self.words[8] = RECORD_HEADER as u64;
    }
}
