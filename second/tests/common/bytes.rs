//! A reading room's copy in bytes, merged records and what is none (Q1.1 to Q1.9).

use second::random::Random;
use second::reader::*;

/// A copy's buffer. A call that is refused must leave every byte of it.
pub struct Room {
    pub copy: Vec<u8>,
}

/// The number that a call returns: 0, or that of its refusal.
fn returned(answer: Result<(), second::answer::Refusal>) -> u64 {
    answer.map_or_else(|refusal| refusal.number(), |()| 0)
}

impl Room {
    pub fn started() -> Self {
        let mut room = Room { copy: pattern(32_784) };
        assert_eq!(room.start(), 0);
        room
    }

    pub fn start(&mut self) -> u64 {
        let before = self.copy.clone();
        let number = returned(reader_start(&mut self.copy));
        assert!(number == 0 || self.copy == before, "a refused start altered the copy");
        number
    }

    pub fn replay(&mut self, record: &[u8]) -> u64 {
        let before = self.copy.clone();
        let number = returned(reader_replay(&mut self.copy, record));
        assert!(number == 0 || self.copy == before, "a refused replay altered the copy");
        number
    }

    /// Reads into any buffer.
    pub fn answer(&self, key: u64, answer: &mut [u8]) -> u64 {
        let before = answer.to_vec();
        let number = returned(reader_value(&self.copy, key, answer));
        assert!(number == 0 || answer == before, "a refused read altered the answer");
        number
    }

    pub fn value(&self, key: u64) -> Result<[u64; 4], u64> {
        let mut answer = pattern(32);
        match self.answer(key, &mut answer) {
            0 => Ok(words_of(&answer).try_into().unwrap()),
            number => Err(number),
        }
    }

    pub fn set(&mut self, place: usize, word: u64) {
        lay_word(&mut self.copy, place, word);
    }
}

/// A record written to so many bytes; a refusal must leave every byte.
pub fn written(words: &[u64], room: usize) -> Result<Vec<u8>, u64> {
    let mut out = pattern(room);
    match returned(record_bytes(words, &mut out)) {
        0 => Ok(out),
        number => {
            assert_eq!(out, pattern(room), "a refused writing altered the buffer");
            Err(number)
        }
    }
}

pub fn pattern(length: usize) -> Vec<u8> {
    (0..length).map(|place| (151 * place + 89) as u8).collect()
}

/// By shifts, so that nothing of the reader's own is used.
pub fn bytes_of(words: &[u64]) -> Vec<u8> {
    words.iter().flat_map(|word| (0..8).map(move |place| (word >> (8 * place)) as u8)).collect()
}

pub fn words_of(bytes: &[u8]) -> Vec<u64> {
    let word = |bytes: &[u8]| bytes.iter().rev().fold(0, |word, &byte| word << 8 | u64::from(byte));
    bytes.chunks(8).map(word).collect()
}

pub fn lay_word(bytes: &mut [u8], place: usize, word: u64) {
    bytes[8 * place..8 * place + 8].copy_from_slice(&bytes_of(&[word]));
}

/// A merged record of the coordinator's first serial: key, start and length by key.
pub fn merged(number: u64, coordinator: u64, writes: &[(u64, u64, u64)]) -> Vec<u64> {
    let count = writes.len() as u64;
    let transaction = (coordinator << 32) + 1;
    let mask = 1 << coordinator.wrapping_sub(1).min(7);
    let offset = if count == 0 { 0 } else { 9 };
    let mut words =
        vec![9 + 3 * count, 3, 0, number, coordinator, transaction, mask, count, offset];
    writes.iter().for_each(|&(key, start, length)| words.extend([key, start, length]));
    words
}

/// So many writes of keys 0, 1 and so on.
pub fn many(count: u64) -> Vec<(u64, u64, u64)> {
    (0..count).map(|key| (key, 1_000 + key, key % 3)).collect()
}

/// Records around every bound: no writes and 128, the first and the last key, pair and mask.
pub fn good_records() -> Vec<Vec<u64>> {
    let last = u64::MAX;
    let mut records = vec![
        merged(1, 1, &[]),
        merged(0, 1, &[(0, 0, 0)]),
        merged(last, 8, &[(2_047, last, 0)]),
        merged(1 << 56, 3, &[(0, 0, last), (1, last, 0), (2_046, 1 << 63, (1 << 63) - 1)]),
        merged(77, 5, &many(127)),
        merged(78, 5, &many(128)),
    ];
    for (place, word) in [(5, (1 << 33) - 1), (6, 0), (6, 255)] {
        let mut words = merged(9, 1, &[(5, 700, 12), (300, 8, 0)]);
        words[place] = word;
        records.push(words);
    }
    records
}

/// One word off from a merged record of this number, and records and messages of other kinds.
pub fn no_records(number: u64) -> Vec<Vec<u64>> {
    let good = merged(number, 1, &[(5, 700, 12), (300, 8, 0)]);
    let last = u64::MAX;
    let words =
        [(0, 14), (0, 16), (0, 0), (1, 0), (1, 1), (1, 2), (1, 4), (1, 259), (2, 1), (2, last)];
    let pairs =
        [(4, 0), (4, 2), (4, 9), (4, (1 << 32) + 1), (5, 1 << 32), (5, (2 << 32) + 1), (5, 1)];
    let counts = [(6, 256), (6, last), (7, 0), (7, 1), (7, 3), (7, (1 << 32) + 2), (8, 0), (8, 10)];
    let writes = [(9, 300), (9, 301), (9, 2_048), (12, 5), (12, 4), (12, 2_048), (12, last)];
    let values = [(11, last), (11, last - 699), (14, last - 7), (13, last)];
    let one_off = words.into_iter().chain(pairs).chain(counts).chain(writes).chain(values);
    let mut all: Vec<Vec<u64>> = one_off
        .map(|(place, word)| {
            let mut words = good.clone();
            words[place] = word;
            if (place, word) == (13, last) {
                words[14] = 1;
            }
            words
        })
        .collect();
    let transaction = (1 << 32) + 1;
    all.extend([
        vec![],
        vec![1],
        good[..14].to_vec(),
        [good.clone(), vec![0]].concat(),
        merged(number, 0, &[]),
        merged(number, 9, &[]),
        merged(number, 1, &many(129)),
        // A part, a state, a JOIN and a record of no writes with an offset.
        vec![12, 1, 1, number, 1, transaction, 1, 1, 9, 5, 700, 0],
        vec![9, 2, 1, number, 0, 0, 0, 0, 0],
        vec![10, 1, 1, 2, 1, transaction, 0, 0, 0, 0],
        vec![9, 3, 0, number, 1, transaction, 1, 0, 9],
    ]);
    all
}

/// Other byte strings of the same length: each bit flipped, each two neighbours exchanged,
/// each word and the whole in reverse, turned by a byte, and some of random bytes.
pub fn others(bytes: &[u8]) -> Vec<Vec<u8>> {
    let mut all = Vec::new();
    for place in 0..bytes.len() {
        // Of long records some bits only.
        let bits = if bytes.len() > 200 { place % 8..place % 8 + 1 } else { 0..8 };
        for bit in bits {
            let mut other = bytes.to_vec();
            other[place] ^= 1 << bit;
            all.push(other);
        }
        if place > 0 {
            let mut other = bytes.to_vec();
            other.swap(place - 1, place);
            all.push(other);
        }
    }
    let reversed: Vec<u8> = bytes.chunks(8).flat_map(|word| word.iter().rev().copied()).collect();
    let mut turned = bytes.to_vec();
    turned.rotate_left(1);
    all.extend([reversed, bytes.iter().rev().copied().collect(), turned]);
    let mut random = Random::new(bytes.len() as u64);
    for _ in 0..50 {
        let mut other = bytes.to_vec();
        for _ in 0..3 {
            let place = random.below(bytes.len() as u64) as usize;
            other[place] = random.word() as u8;
        }
        all.push(other);
    }
    all.retain(|other| other != bytes);
    all
}
