//! A record written to bytes in a probe (Q1.8, Q1.9). The call belongs to no site, merger or
//! copy, so that no state is there to alter or to sum.

use std::fmt::Write;

use super::lent;
use super::sums;
use crate::reader::record_bytes;

/// Bytes for a record, more than any has.
pub const BYTES: u64 = 4_096;

/// Writes the words in hand to a buffer of so many bytes, at most `BYTES`, and appends the
/// line's output. Nothing is kept of the buffer.
pub fn obey(event: u64, room: u64, hand: &[u64], output: &mut String) {
    let mut out = buffer(room.min(BYTES));
    let answer = record_bytes(hand, &mut out);
    // Writing to a String cannot fail.
    let _ = match answer {
        Ok(()) => write!(output, "{event} ok"),
        Err(refusal) => write!(output, "{event} refused {}", refusal.number()),
    };
    let written = answer.map_or(0, |()| out.len());
    let sum = out.iter().fold(0, |sum, &byte| sums::more(sum, u64::from(byte)));
    let _ = writeln!(output, " ; {written} {sum} 1 0");
}

/// Each byte is the least significant one of the word that stands there in a buffer of words.
fn buffer(room: u64) -> Vec<u8> {
    lent::buffer(room).into_iter().map(|word| word as u8).collect()
}
