//! The desks that transactions begin for (Q10.1 to Q10.4).

use crate::sizes::*;

#[derive(Clone, Copy, PartialEq, Eq, PartialOrd, Ord, Debug)]
#[repr(u64)]
pub enum Desk {
    House = 0,
    Proofing = 1,
}

pub const DESKS: [Desk; 2] = [Desk::House, Desk::Proofing];

impl Desk {
    /// The desk that a number stands for; none for any but 0 and 1.
    pub fn of(number: u64) -> Option<Desk> {
        DESKS.into_iter().find(|desk| desk.number() == number)
    }

    pub fn number(self) -> u64 {
        self as u64
    }

    /// Q10.4: distinct keys that a part may write at its site.
    pub fn written_keys(self) -> usize {
        match self {
            Desk::House => SET_KEYS,
            Desk::Proofing => PROOFING_KEYS,
        }
    }
}
