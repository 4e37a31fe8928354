//! Lines of a `room` script.

use crate::reader::{COPY_BYTES, WORD_BYTES};

/// Bytes of a line without its newline.
pub const MOST_BYTES: usize = 10_000;
pub const MOST_COPY: u64 = 32_800;
pub const MOST_ANSWER: u64 = 96;
pub const MOST_SHIFT: u64 = 15;
pub const MOST_RECORD: usize = 4_096;
const LAST_WORD: u64 = (COPY_BYTES / WORD_BYTES) as u64 - 1;

#[derive(Clone, PartialEq, Eq, Debug)]
pub enum Line {
    Start,
    Replay(Vec<u8>),
    Value(u64),
    Copy(usize),
    Answer(usize),
    Shift(usize),
    /// A word's place in the copy, and what it is set to.
    Word(usize, u64),
    Sums,
}

pub fn is_remark(line: &[u8]) -> bool {
    line.first().is_none_or(|&byte| byte == b'#')
}

/// One space between words; none where the line has no form or a number is out of range.
pub fn parse(line: &[u8]) -> Option<Line> {
    let words: Vec<&[u8]> = line.split(|&byte| byte == b' ').collect();
    let up_to = |word, most| number(word).filter(|&number| number <= most).map(|it| it as usize);
    Some(match words[..] {
        [b"start"] => Line::Start,
        [b"replay", word] => Line::Replay(bytes(word)?),
        [b"value", key] => Line::Value(number(key)?),
        [b"copy", length] => Line::Copy(up_to(length, MOST_COPY)?),
        [b"answer", length] => Line::Answer(up_to(length, MOST_ANSWER)?),
        [b"shift", length] => Line::Shift(up_to(length, MOST_SHIFT)?),
        [b"word", place, word] => Line::Word(up_to(place, LAST_WORD)?, number(word)?),
        [b"sums"] => Line::Sums,
        _ => return None,
    })
}

/// One or more decimal digits; the number is below 2^64.
fn number(word: &[u8]) -> Option<u64> {
    if word.is_empty() {
        return None;
    }
    word.iter().try_fold(0u64, |sum, &byte| {
        let digit = byte.is_ascii_digit().then(|| u64::from(byte - b'0'))?;
        sum.checked_mul(10)?.checked_add(digit)
    })
}

/// Two hexadecimal digits for each byte, or `-` for none.
fn bytes(word: &[u8]) -> Option<Vec<u8>> {
    if word == b"-" {
        return Some(vec![]);
    }
    if word.is_empty() || !word.len().is_multiple_of(2) || word.len() > 2 * MOST_RECORD {
        return None;
    }
    let digit = |byte: u8| char::from(byte).to_digit(16).map(|digit| digit as u8);
    word.chunks_exact(2).map(|two| Some(digit(two[0])? << 4 | digit(two[1])?)).collect()
}
