//! Conversions of bookmarks in a probe (Q8.1 to Q8.9). They are no calls of a site, of the
//! merger or of a copy, so that no state is there to alter or to sum.

use std::fmt::Write;

use super::lent::{buffer, ROOM};
use super::line::Line;
use super::sums;
use crate::answer::Refusal;
use crate::bookmarks::{offset, page, pages, Place};

/// What stands behind `ok` or the refusal; words written; the buffer's checksum, or 0.
type Done = (Result<String, Refusal>, usize, u64);

/// Obeys a line with the words in hand and appends its output.
pub fn obey(event: u64, line: &Line, hand: &[u64], output: &mut String) {
    let (answer, words, sum) = match (line.verb.as_str(), line.numbers.as_slice()) {
        ("page", &[length, offset]) => {
            (page(length, offset).map(|place| format!(" {} {}", place.page, place.rest)), 0, 0)
        }
        ("offset", &[length, page, rest]) => {
            (offset(length, Place::new(page, rest)).map(|offset| format!(" {offset}")), 0, 0)
        }
        ("run", &[length, room]) => run(length, hand, room),
        _ => unreachable!("a line for a conversion"),
    };
    // Writing to a String cannot fail.
    let _ = match answer {
        Ok(results) => write!(output, "{event} ok{results}"),
        Err(refusal) => write!(output, "{event} refused {}", refusal.number()),
    };
    let _ = writeln!(output, " ; {words} {sum} 1 0");
}

/// The buffer has so many words, whatever `room` says; nothing is kept of it.
fn run(length: u64, offsets: &[u64], room: u64) -> Done {
    let mut out = buffer(room.min(ROOM));
    let answer = pages(length, offsets, &mut out);
    let words = answer.map_or(0, |()| out.len());
    (answer.map(|()| String::new()), words, sums::words(0, &out))
}
