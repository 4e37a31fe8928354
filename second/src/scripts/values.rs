//! Values that scripts write (Q12.1, Q12.5), and a scene of those that do not fit.

use super::Generator;
use crate::value::Value;

impl Generator {
    pub(super) fn write_at(&mut self, site: u64, transaction: u64, key: u64, value: Value) {
        self.tell("write", &[site, transaction, key, value.start, value.length]);
    }

    /// Mostly a start that tells its line; at times one from the ends.
    pub(super) fn fresh_value(&mut self) -> Value {
        let start = match self.random.below(20) {
            0 => 0,
            1 => u64::MAX,
            2 => self.random.word(),
            _ => self.written + 1,
        };
        self.random.value_from(start)
    }

    fn long(&mut self) -> Value {
        let start = if self.random.chance(70) { self.written + 1 } else { self.random.word() };
        self.random.long_value(start)
    }

    /// A write that another cause refuses, whether its value fits or not.
    pub(super) fn write_any(&mut self, site: u64, transaction: u64, key: u64) {
        let value = if self.random.chance(50) { self.fresh_value() } else { self.long() };
        self.write_at(site, transaction, key, value);
    }

    fn write_long(&mut self, site: u64, transaction: u64, key: u64) {
        let value = self.long();
        self.write_at(site, transaction, key, value);
    }

    /// 29 for a new key and for one written before, whose value stays; and where 9, 10 or
    /// 11 holds too, these.
    pub(super) fn long_values(&mut self) {
        let site = self.any_site();
        let key = self.round(site);
        let (Some(early), Some(late)) = (self.begin(site), self.begin(site)) else { return };
        self.write_long(site, early, key(0));
        for place in 0..2 {
            let value = self.fresh_value();
            self.write_at(site, early, key(place), value);
            self.write_long(site, early, key(place));
            self.tell("read", &[site, early, key(place)]);
            self.write_long(site, late, key(place));
        }
        self.tell("commit", &[early]);
        self.tell("install", &[site]);
        self.write_long(site, late, key(0));
        self.tell("read", &[site, late, key(0)]);
        for place in 2..self.random.between(3, 20) {
            let value = self.fresh_value();
            self.write_at(site, late, key(place), value);
        }
        for place in 1..self.random.between(2, 22) {
            self.write_long(site, late, key(place));
        }
        self.tell("read", &[site, late, key(2)]);
        self.tell("commit", &[late]);
        self.take_all();
        self.install_all();
    }
}
