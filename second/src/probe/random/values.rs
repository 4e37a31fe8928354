//! Random values: written, forged in records, poked in parts, in the history, in queued
//! parts and in copies. A value that does not fit is set back after some calls; a copy's
//! words stay whatever they are.

use super::super::lent::COPY_HEADER;
use super::Maker;
use crate::record::{MERGED, PART};
use crate::site::{Footprint, Part};
use crate::sizes::*;
use crate::value::Value;

/// The first field of the starts, and of the lengths, of the values written.
const STARTS: u64 = 300;
const LENGTHS: u64 = 400;

impl Maker {
    pub(super) fn write(&mut self, site: u64, transaction: u64, key: u64) {
        let value = self.random.value();
        self.say(format!("write {site} {transaction} {key} {value}"));
    }

    /// The same, mostly with a value that does not fit.
    pub(super) fn write_long(&mut self, site: u64, transaction: u64, key: u64) {
        let value = self.forged_value();
        self.say(format!("write {site} {transaction} {key} {value}"));
    }

    fn forged_value(&mut self) -> Value {
        let value = self.random.value();
        match self.random.chance(70) {
            true => self.random.long_value(value.start),
            false => value,
        }
    }

    /// Another value in a record that is in hand.
    pub(super) fn forge_value(&mut self) {
        let words = self.probe.hand.words();
        if words.len() <= RECORD_HEADER || !matches!(words[1], PART | MERGED) {
            return;
        }
        let count = (words.len() - RECORD_HEADER) / WRITE_WORDS;
        if count == 0 {
            return;
        }
        let place = RECORD_HEADER + WRITE_WORDS * self.random.below(count as u64) as usize + 1;
        let value = self.forged_value();
        for (place, word) in (place..).zip(value.words()) {
            self.say(format!("word {place} {word}"));
        }
    }

    /// Sets a value, some calls, and what it was where the new one does not fit.
    fn set_value(&mut self, fields: [String; 2], before: Value, calls: impl FnOnce(&mut Self)) {
        let value = self.forged_value();
        for (field, word) in fields.iter().zip(value.words()) {
            self.say(format!("{field} {word}"));
        }
        calls(self);
        if !value.fits() {
            for (field, word) in fields.iter().zip(before.words()) {
                self.say(format!("{field} {word}"));
            }
        }
    }

    fn some_value(&mut self, footprint: &Footprint) -> Option<(u64, Value)> {
        let values: Vec<(u64, Value)> =
            (0..).zip(&footprint.values).map(|(place, write)| (place, write.1)).collect();
        self.random.pick(&values)
    }

    /// A value that a part wrote, or one in the history of its site.
    pub(super) fn value_of(&mut self, site: u64, part: &Part) {
        let transaction = part.transaction;
        let Some((place, before)) = self.some_value(&part.footprint) else {
            return self.past_value(site, transaction);
        };
        let field = |first: u64| format!("live {site} {transaction} {}", first + place);
        self.set_value([field(STARTS), field(LENGTHS)], before, |maker| {
            maker.some_calls(site, transaction);
            maker.some_calls(site, transaction);
        });
    }

    fn past_value(&mut self, site: u64, transaction: u64) {
        let history = &self.probe.sites[site as usize - 1].site.history;
        let entries: Vec<_> = history.iter().cloned().collect();
        let Some(entry) = self.random.pick(&entries) else { return };
        let Some((place, before)) = self.some_value(&entry.footprint) else { return };
        let slot = (entry.install - 1) % HISTORY as u64 + 1;
        let field = |first: u64| format!("past {site} {slot} {}", first + place);
        self.set_value([field(STARTS), field(LENGTHS)], before, |maker| {
            maker.some_calls(site, transaction);
            maker.search(site);
        });
    }

    /// A value in a queued part of the merger.
    pub(super) fn queued_value(&mut self) {
        let logs = &self.probe.merger.merger.logs[..self.sites() as usize];
        let mut values = Vec::new();
        for (site, log) in (1..).zip(logs) {
            for (part, save) in log.queue.iter().enumerate() {
                let writes = save.writes.iter().enumerate();
                values.extend(writes.map(|(write, &(_, value))| (site, part, write, value)));
            }
        }
        let Some((site, part, write, before)) = self.random.pick::<(u64, _, _, _)>(&values) else {
            return;
        };
        let place = PART_BUFFER * part + RECORD_HEADER + WRITE_WORDS * write + 1;
        let field = |place: usize| format!("queued {site} {place}");
        self.set_value([field(place), field(place + 1)], before, |maker| {
            maker.say("emit".to_string());
            maker.merge();
        });
        self.say("emit".to_string());
    }

    /// Any words for a value of a copy.
    pub(super) fn copied(&mut self) {
        let (copy, key) = (self.random.between(1, 2), self.random.below(KEYS));
        let place = COPY_HEADER + VALUE_WORDS * key as usize;
        for (place, word) in (place..).zip(self.forged_value().words()) {
            self.say(format!("copied {copy} {place} {word}"));
        }
        self.say(format!("value {copy} {key}"));
    }
}
