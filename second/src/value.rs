//! A value: a start and a length (Q12.1, Q12.2, Q12.5).

use std::fmt;

/// Two words wherever a value stands: the start, then the length.
#[derive(Clone, Copy, PartialEq, Eq, Debug, Default)]
pub struct Value {
    pub start: u64,
    pub length: u64,
}

/// Q12.2: what every key holds before it is written.
pub const FRESH: Value = Value::new(0, 0);

impl Value {
    pub const fn new(start: u64, length: u64) -> Self {
        Value { start, length }
    }

    /// Q12.5: start plus length is at most 2^64 − 1.
    pub fn fits(self) -> bool {
        self.start.checked_add(self.length).is_some()
    }

    pub fn words(self) -> [u64; 2] {
        [self.start, self.length]
    }
}

/// Q12.8: start, then length.
impl fmt::Display for Value {
    fn fmt(&self, out: &mut fmt::Formatter) -> fmt::Result {
        write!(out, "{} {}", self.start, self.length)
    }
}

#[cfg(test)]
mod tests {
    use super::*;

    const LAST: u64 = u64::MAX;

    #[test]
    fn a_sum_of_2_to_the_64_does_not_fit_and_one_below_does() {
        for (start, length) in [(0, 0), (LAST, 0), (0, LAST), (1, LAST - 1), (1 << 63, LAST >> 1)] {
            assert!(Value::new(start, length).fits(), "{start} {length}");
        }
        for (start, length) in [(LAST, 1), (1, LAST), (2, LAST - 1), (1 << 63, 1 << 63)] {
            assert!(!Value::new(start, length).fits(), "{start} {length}");
        }
    }

    #[test]
    fn a_sum_that_wraps_to_a_small_number_does_not_fit() {
        assert!(!Value::new(LAST, LAST).fits());
        assert!(!Value::new(LAST - 6, 12).fits());
    }

    #[test]
    fn the_length_is_never_shown_before_the_start() {
        let value = Value::new(700, 12);
        assert_eq!((value.to_string().as_str(), value.words()), ("700 12", [700, 12]));
        assert_eq!(Value::default(), FRESH);
    }
}
