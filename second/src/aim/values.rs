//! Random values (Q12.1, Q12.5): about half with a length, some that end at 2^64 − 1, some
//! that do not fit.

use crate::random::Random;
use crate::value::Value;

impl Random {
    /// Any start, small ones too.
    pub fn value(&mut self) -> Value {
        let start = match self.below(3) {
            0 => self.below(1_000),
            _ => self.word(),
        };
        self.value_from(start)
    }

    /// A value of this start, most of the time one that fits.
    pub fn value_from(&mut self, start: u64) -> Value {
        let rest = u64::MAX - start;
        let length = match self.below(40) {
            0..=17 => 0,
            18..=32 => self.between(1, 60).min(rest),
            33..=35 => self.below(rest / 2 + 1),
            36 => rest,
            37 => self.word(),
            _ => return self.long_value(start),
        };
        Value::new(start, length)
    }

    /// A value that does not fit: its sum is 2^64, a little more, or far more.
    pub fn long_value(&mut self, start: u64) -> Value {
        let start = start.max(1);
        let least = u64::MAX - start + 1;
        let more = [0, 0, 1, self.below(start), start - 1][self.below(5) as usize];
        Value::new(start, least + more.min(start - 1))
    }
}
