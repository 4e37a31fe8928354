//! The reading room's calls on bytes (Q1.1 to Q1.7): a copy in a byte buffer is started,
//! replays merged records and answers keys. The store writes a merged record to bytes for
//! the merger's host (Q1.8, Q1.9).

use crate::answer::{require, Pair, Refusal};
use crate::copy::Copy;
use crate::record;
use crate::sizes::*;
use crate::value::Value;

/// Q1.2: a word stands in eight bytes, the least significant byte first.
pub const WORD_BYTES: usize = 8;
const PAIR_WORDS: usize = 2;
/// Q1.4: the last number, the last coordinator and the values of all keys.
pub const COPY_BYTES: usize = WORD_BYTES * (PAIR_WORDS + VALUE_WORDS * KEYS as usize);
/// Q1.4: a value, then the pair.
pub const ANSWER_BYTES: usize = WORD_BYTES * (VALUE_WORDS + PAIR_WORDS);

/// Starts a copy.
pub fn reader_start(copy: &mut [u8]) -> Result<(), Refusal> {
    require(copy.len() == COPY_BYTES, Refusal::Impossible)?;
    lay_copy(&Copy::start(), copy);
    Ok(())
}

/// Replays a merged record. Q1.6: 2 stands before 14.
pub fn reader_replay(copy: &mut [u8], record: &[u8]) -> Result<(), Refusal> {
    let mut after = copy_in(copy)?;
    after.replay(&record_words(record)?)?;
    lay_copy(&after, copy);
    Ok(())
}

/// Reads a key: start, length, number and coordinator.
pub fn reader_value(copy: &[u8], key: u64, answer: &mut [u8]) -> Result<(), Refusal> {
    require(answer.len() == ANSWER_BYTES, Refusal::Impossible)?;
    let (value, pair) = copy_in(copy)?.value(key)?;
    lay(&[value.start, value.length, pair.number, pair.coordinator], answer);
    Ok(())
}

/// Writes a merged record to a buffer of exactly eight times as many bytes.
pub fn record_bytes(words: &[u64], out: &mut [u8]) -> Result<(), Refusal> {
    record::parse_merged(words)?;
    require(out.len() == WORD_BYTES * words.len(), Refusal::Impossible)?;
    lay(words, out);
    Ok(())
}

/// The words of a record in bytes. Q1.3: the bytes are eight times word 0, and the product
/// is taken where it cannot wrap.
pub fn record_words(bytes: &[u8]) -> Result<Vec<u64>, Refusal> {
    let &length = bytes.first_chunk().ok_or(Refusal::Impossible)?;
    let due = u128::from(u64::from_le_bytes(length)) * WORD_BYTES as u128;
    require(bytes.len() as u128 == due, Refusal::Impossible)?;
    Ok(words_in(bytes).collect())
}

/// Any words are a copy's.
fn copy_in(bytes: &[u8]) -> Result<Copy, Refusal> {
    require(bytes.len() == COPY_BYTES, Refusal::Impossible)?;
    let words: Vec<u64> = words_in(bytes).collect();
    let (pair, values) = words.split_at(PAIR_WORDS);
    let value = |words: &[u64]| Value::new(words[0], words[1]);
    Ok(Copy {
        last: Pair::new(pair[0], pair[1]),
        values: values.chunks_exact(VALUE_WORDS).map(value).collect(),
    })
}

fn lay_copy(copy: &Copy, bytes: &mut [u8]) {
    let (pair, values) = bytes.split_at_mut(WORD_BYTES * PAIR_WORDS);
    lay(&[copy.last.number, copy.last.coordinator], pair);
    for (bytes, value) in values.chunks_exact_mut(WORD_BYTES * VALUE_WORDS).zip(&copy.values) {
        lay(&value.words(), bytes);
    }
}

/// The whole words of a byte string, in order.
pub fn words_in(bytes: &[u8]) -> impl Iterator<Item = u64> + '_ {
    let (words, _) = bytes.as_chunks::<WORD_BYTES>();
    words.iter().map(|&word| u64::from_le_bytes(word))
}

/// Lays words into bytes that have room for exactly these.
fn lay(words: &[u64], bytes: &mut [u8]) {
    for (bytes, word) in bytes.chunks_exact_mut(WORD_BYTES).zip(words) {
        bytes.copy_from_slice(&word.to_le_bytes());
    }
}
