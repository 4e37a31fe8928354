//! A copy: replays the stream (G5 and G6, Q12.1, Q12.2).

use crate::answer::{require, Pair, Refusal};
use crate::record;
use crate::sizes::*;
use crate::value::{Value, FRESH};

#[derive(Clone, PartialEq, Eq, Debug)]
pub struct Copy {
    /// Pair of the last replay; (0, 0) before the first.
    pub last: Pair,
    /// By key; any words may stand for a value.
    pub values: Vec<Value>,
}

impl Copy {
    pub fn start() -> Self {
        Copy { last: Pair::default(), values: vec![FRESH; KEYS as usize] }
    }

    pub fn replay(&mut self, words: &[u64]) -> Result<Pair, Refusal> {
        let save = record::parse_merged(words)?;
        require(save.pair > self.last, Refusal::NotAbove)?;
        self.last = save.pair;
        for (key, value) in save.writes {
            self.values[key as usize] = value;
        }
        Ok(save.pair)
    }

    /// A key's value and the pair that it belongs to.
    pub fn value(&self, key: u64) -> Result<(Value, Pair), Refusal> {
        require(key < KEYS, Refusal::Impossible)?;
        Ok((self.values[key as usize], self.last))
    }
}
