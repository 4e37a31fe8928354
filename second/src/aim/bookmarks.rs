//! Random page lengths, offsets, pages and rests (Q8.1 to Q8.9), aimed at the edges: where a
//! page begins and ends, where a way back passes 2^64 − 1, and a rest at the page length.

use crate::random::Random;

const LAST: u64 = u64::MAX;

impl Random {
    /// A number of any width, small ones as often as large ones.
    pub fn any_width(&mut self) -> u64 {
        let width = self.below(64);
        self.word() >> width
    }

    /// The number itself, or one beside it.
    pub fn beside(&mut self, number: u64) -> u64 {
        number.wrapping_add(self.below(3)).wrapping_sub(1)
    }

    pub fn page_length(&mut self) -> u64 {
        match self.below(24) {
            0 => 0,
            1 => 1,
            2 => LAST,
            3..=8 => {
                let power = 1 << self.below(64);
                self.beside(power)
            }
            9..=11 => [2, 3, 10, 1_800, 3_000][self.below(5) as usize],
            _ => self.any_width(),
        }
    }

    /// Mostly beside the first byte of a page; at times the first or the last of all.
    pub fn offset_for(&mut self, length: u64) -> u64 {
        let Some(pages) = LAST.checked_div(length) else { return self.any_width() };
        let page = match self.below(20) {
            0 => return 0,
            1 => return LAST,
            2..=7 => return self.any_width(),
            8 | 9 => pages,
            10 => 1,
            _ => self.any_width().min(pages),
        };
        self.beside(page * length)
    }

    /// Below the page length, its last byte, the length itself, or above.
    pub fn rest_for(&mut self, length: u64) -> u64 {
        match self.below(12) {
            0 => 0,
            1 | 2 => length.saturating_sub(1),
            3 => length,
            4 => length.saturating_add(1),
            5 | 6 => self.any_width(),
            _ => self.below(length.max(1)),
        }
    }

    /// Mostly beside the last page whose way back does not pass 2^64 − 1.
    pub fn page_for(&mut self, length: u64, rest: u64) -> u64 {
        let Some(most) = (LAST - rest).checked_div(length) else { return self.any_width() };
        match self.below(12) {
            0 => LAST,
            1 | 2 => self.any_width(),
            3 => self.below(most.saturating_add(1)),
            4 => self.word() | most,
            _ => self.beside(most),
        }
    }

    /// The outgoing buffer for a run of so many offsets: mostly twice as many words.
    pub fn room_for(&mut self, offsets: u64) -> u64 {
        let due = 2 * offsets;
        match self.below(16) {
            0 => due.saturating_sub(1),
            1 => due + 1,
            2 => due + 2,
            3 => 2 * due,
            4 => offsets,
            5 => [0, 8_192, 8_193, LAST][self.below(4) as usize],
            _ => due,
        }
    }
}
