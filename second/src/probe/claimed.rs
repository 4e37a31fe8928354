//! Desk and count of written keys of a part as a caller hands them in (Q10.6), as
//! far as the part itself cannot hold them.

use crate::desk::Desk;
use crate::site::Part;

#[derive(Clone, Copy, PartialEq, Eq, Debug, Default)]
pub struct Claimed {
    /// A number that is no desk's.
    desk: Option<u64>,
    /// A count that is not that of the keys written.
    wrote: Option<u64>,
}

impl Claimed {
    pub fn poke_desk(&mut self, part: &mut Part, value: u64) {
        self.desk = match Desk::of(value) {
            Some(desk) => {
                part.desk = desk;
                None
            }
            None => Some(value),
        };
    }

    pub fn poke_wrote(&mut self, part: &Part, value: u64) {
        self.wrote = (value != own_count(part)).then_some(value);
    }

    /// The desk is one, and it allows so many keys.
    pub fn is_possible(&self, part: &Part) -> bool {
        let wrote = self.wrote.unwrap_or(own_count(part));
        self.desk.is_none() && wrote <= part.desk.written_keys() as u64
    }

    /// Possible, with keys that nobody wrote or without some that were.
    pub fn is_open(&self, part: &Part) -> bool {
        self.wrote.is_some() && self.is_possible(part)
    }
}

fn own_count(part: &Part) -> u64 {
    part.footprint.writes.len() as u64
}
