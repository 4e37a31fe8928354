//! The reading room's calls on bytes and records written to bytes (Q1.1 to Q1.9).

mod common;

use std::ops::Range;

use common::bytes::*;
use second::copy::Copy;
use second::reader::*;
use second::record::parse_merged;

/// Lengths around each bound of a copy: none, a word, the pair, the whole and more.
fn copy_lengths() -> impl Iterator<Item = usize> {
    (0..=40).chain(32_768..=32_800).chain([4_098, 16_384, 65_568])
}

#[test]
fn no_word_of_a_copy_stands_in_other_bytes() {
    let mut room = Room::started();
    let writes = [(1, 0x1122_3344_5566_7788, 0x99), (2_047, 700, 0xAABB)];
    assert_eq!(room.replay(&bytes_of(&merged(0x0102_0304_0506_0708, 2, &writes))), 0);
    let mut due = vec![0; 32_784];
    due[..8].copy_from_slice(&[8, 7, 6, 5, 4, 3, 2, 1]);
    due[8] = 2;
    due[32..40].copy_from_slice(&[0x88, 0x77, 0x66, 0x55, 0x44, 0x33, 0x22, 0x11]);
    due[40] = 0x99;
    due[32_768..32_770].copy_from_slice(&[0xBC, 2]);
    due[32_776..32_778].copy_from_slice(&[0xBB, 0xAA]);
    assert!(room.copy == due);
}

#[test]
fn no_record_travels_in_other_bytes() {
    let words = merged(0x0102_0304_0506_0708, 3, &[(0x7FF, 0xA1A2_A3A4_A5A6_A7A8, 0x55)]);
    let mut due = vec![12, 0, 0, 0, 0, 0, 0, 0, 3, 0, 0, 0, 0, 0, 0, 0];
    due.extend([0, 0, 0, 0, 0, 0, 0, 0, 8, 7, 6, 5, 4, 3, 2, 1]);
    due.extend([3, 0, 0, 0, 0, 0, 0, 0, 1, 0, 0, 0, 3, 0, 0, 0]);
    due.extend([4, 0, 0, 0, 0, 0, 0, 0, 1, 0, 0, 0, 0, 0, 0, 0]);
    due.extend([9, 0, 0, 0, 0, 0, 0, 0, 0xFF, 7, 0, 0, 0, 0, 0, 0]);
    due.extend([0xA8, 0xA7, 0xA6, 0xA5, 0xA4, 0xA3, 0xA2, 0xA1, 0x55, 0, 0, 0, 0, 0, 0, 0]);
    assert_eq!(written(&words, 96), Ok(due.clone()));
    assert_eq!(Room::started().replay(&due), 0);
}

#[test]
fn a_started_copy_never_keeps_a_byte() {
    let mut room = Room { copy: vec![0xAB; 32_784] };
    assert_eq!(room.start(), 0);
    assert!(room.copy.iter().all(|&byte| byte == 0));
    for key in [0, 1, 1_024, 2_047] {
        assert_eq!(room.value(key), Ok([0, 0, 0, 0]));
    }
}

#[test]
fn no_copy_of_another_length_is_taken() {
    let record = bytes_of(&merged(1, 1, &[(5, 700, 0)]));
    for length in copy_lengths() {
        let due = if length == 32_784 { 0 } else { 2 };
        let mut room = Room { copy: pattern(length) };
        assert_eq!(room.value(0).err().unwrap_or(0), due, "value of {length} bytes");
        assert_eq!(room.start(), due, "start of {length} bytes");
        assert_eq!(room.replay(&record), due, "replay in {length} bytes");
    }
    assert_eq!(COPY_BYTES, 32_784);
}

#[test]
fn no_answer_of_another_length_is_written() {
    let mut room = Room::started();
    room.replay(&bytes_of(&merged(9, 4, &[(5, 700, 12)])));
    for length in (0..=96).chain([4_096]) {
        for key in [0, 5, 2_047, 2_048, u64::MAX] {
            let mut answer = pattern(length);
            let returned = room.answer(key, &mut answer);
            let due = if length == 32 && key < 2_048 { 0 } else { 2 };
            assert_eq!(returned, due, "key {key} in {length} bytes");
        }
    }
    assert_eq!(ANSWER_BYTES, 32);
}

#[test]
fn an_answer_is_never_in_another_order() {
    let mut room = Room::started();
    room.replay(&bytes_of(&merged(0x0201, 4, &[(5, 0x0403, 0x0605)])));
    let mut answer = pattern(32);
    assert_eq!(room.answer(5, &mut answer), 0);
    let due: Vec<u8> = [[3, 4], [5, 6], [1, 2], [4, 0]]
        .into_iter()
        .flat_map(|low| [low[0], low[1], 0, 0, 0, 0, 0, 0])
        .collect();
    assert_eq!(answer, due);
}

#[test]
fn no_key_above_the_last_is_read() {
    let mut room = Room::started();
    room.replay(&bytes_of(&merged(1, 1, &[(0, 70, 1), (2_047, 80, 2)])));
    assert_eq!(room.value(0), Ok([70, 1, 1, 1]));
    assert_eq!(room.value(2_046), Ok([0, 0, 1, 1]));
    assert_eq!(room.value(2_047), Ok([80, 2, 1, 1]));
    let above = [2_048, 4_095, 4_096, 1 << 16, 1 << 32, (1 << 32) + 5, 1 << 60, u64::MAX];
    for key in above {
        assert_eq!(room.value(key), Err(2), "{key}");
    }
}

#[test]
fn no_words_of_a_copy_are_answered_otherwise_than_they_stand() {
    let mut room = Room { copy: pattern(32_784) };
    let words = words_of(&room.copy.clone());
    for key in [0, 1, 2, 77, 2_046, 2_047] {
        let at = 2 + 2 * key as usize;
        assert_eq!(room.value(key), Ok([words[at], words[at + 1], words[0], words[1]]));
    }
    room.set(2 + 2 * 9, u64::MAX);
    room.set(3 + 2 * 9, u64::MAX);
    room.set(1, 9);
    assert_eq!(room.value(9), Ok([u64::MAX, u64::MAX, words[0], 9]));
}

#[test]
fn no_record_is_taken_at_another_length() {
    for writes in [0, 1, 2, 3, 127, 128] {
        let record = bytes_of(&merged(1, 1, &many(writes)));
        let longer = [record.clone(), pattern(40)].concat();
        for length in 0..=longer.len() {
            let due = if length == record.len() { 0 } else { 2 };
            assert_eq!(Room::started().replay(&longer[..length]), due, "{writes}, {length}");
        }
    }
}

#[test]
fn no_record_is_taken_for_a_word_0_alone() {
    // Word 0 is honest at each length, so that only the other words are wrong.
    let whole = bytes_of(&merged(1, 1, &many(140)));
    for length in (8..=whole.len()).step_by(8) {
        let mut bytes = whole[..length].to_vec();
        lay_word(&mut bytes, 0, length as u64 / 8);
        let mut counted = bytes.clone();
        assert_eq!(Room::started().replay(&bytes), 2, "{length}");
        if length >= 72 {
            let writes = (length as u64 / 8 - 9) / 3;
            lay_word(&mut counted, 7, writes);
            lay_word(&mut counted, 8, if writes == 0 { 0 } else { 9 });
            let good = (length - 72) % 24 == 0 && writes <= 128;
            let due = if good { 0 } else { 2 };
            assert_eq!(Room::started().replay(&counted), due, "{length} with {writes} writes");
        }
    }
}

#[test]
fn no_byte_count_between_two_words_is_taken() {
    for writes in [0, 2, 128] {
        let record = bytes_of(&merged(1, 1, &many(writes)));
        for more in 1..=7 {
            let longer = [&record[..], &vec![0; more]].concat();
            assert_eq!(Room::started().replay(&longer), 2);
            let shorter = &record[..record.len() - more];
            assert_eq!(Room::started().replay(shorter), 2);
            let mut honest = shorter.to_vec();
            lay_word(&mut honest, 0, shorter.len() as u64 / 8);
            assert_eq!(Room::started().replay(&honest), 2);
        }
    }
}

#[test]
fn no_word_0_whose_eightfold_wraps_is_taken() {
    for writes in [0, 1, 2, 128] {
        let record = bytes_of(&merged(1, 1, &many(writes)));
        let words = record.len() as u64 / 8;
        for eighth in 1..=7 {
            let mut bytes = record.clone();
            lay_word(&mut bytes, 0, (eighth << 61) + words);
            assert_eq!(Room::started().replay(&bytes), 2, "{eighth} eighths and {words}");
            assert_eq!(written(&words_of(&bytes), bytes.len()), Err(2));
        }
        // The low half alone, and the low byte alone.
        for wrong in [(1 << 32) + words, (1 << 16) + words, words + 256, words << 8] {
            let mut bytes = record.clone();
            lay_word(&mut bytes, 0, wrong);
            assert_eq!(Room::started().replay(&bytes), 2, "word 0 is {wrong}");
        }
    }
    for length in [0, 1, 7, 8, 9, 15, 16] {
        for eighth in 0..=7 {
            let mut bytes = vec![0; length];
            if length >= 8 {
                lay_word(&mut bytes, 0, (eighth << 61) + length as u64 / 8);
            }
            assert_eq!(Room::started().replay(&bytes), 2, "{length} bytes");
        }
    }
}

/// Every bit of a record flipped: how often it is refused, and how often taken.
fn flipped(record: &[u8], bytes: Range<usize>) -> (u64, u64) {
    let (mut refused, mut taken) = (0, 0);
    for (place, bit) in bytes.flat_map(|place| (0..8).map(move |bit| (place, bit))) {
        let mut changed = record.to_vec();
        changed[place] ^= 1 << bit;
        let mut room = Room::started();
        match room.replay(&changed) {
            0 => taken += 1,
            2 => {
                refused += 1;
                continue;
            }
            other => panic!("byte {place}, bit {bit}: {other}"),
        }
        // What was taken is what stands in the bytes, wherever the flip was.
        let words = words_of(&changed);
        for write in words[9..].chunks(3) {
            assert_eq!(room.value(write[0]), Ok([write[1], write[2], words[3], words[4]]));
        }
        let kept = words[9..].chunks(3).map(|write| write[0] as usize).collect::<Vec<_>>();
        assert!((0..2_048).all(|key| {
            kept.contains(&key) || words_of(&room.copy)[2 + 2 * key..][..2] == [0, 0]
        }));
    }
    (refused, taken)
}

#[test]
fn no_flipped_bit_of_a_record_passes_unseen() {
    let record = bytes_of(&merged(7, 1, &[(5, 700, 12), (300, 1 << 63, 9)]));
    let word = |place: usize| flipped(&record, 8 * place..8 * place + 8);
    for place in [0, 1, 2, 4, 7, 8] {
        assert_eq!(word(place), (64, 0), "word {place}");
    }
    assert_eq!(word(3), (0, 64), "any number is possible");
    // Any serial but 0: transaction 4,294,967,297 has serial 1.
    assert_eq!(word(5), (33, 31));
    assert_eq!(word(6), (56, 8), "any mask of eight sites");
    // Key 5 stays below 300 with bits 0 to 8, key 300 between 5 and 2,048 with bits 0 to 10.
    assert_eq!(word(9), (55, 9));
    assert_eq!(word(12), (53, 11));
    // Of the starts, the one at 2^63 fits with any length below 2^63.
    assert_eq!(word(10), (0, 64));
    assert_eq!(word(11), (0, 64));
    assert_eq!(word(13), (0, 64));
    assert_eq!(word(14), (1, 63));
}

#[test]
fn no_pair_at_or_below_the_last_is_replayed() {
    let record = |number, coordinator| bytes_of(&merged(number, coordinator, &[(5, number, 0)]));
    let last = u64::MAX;
    let pairs = [(0, 0), (0, 1), (1, 1), (1, 8), (2, 1), (255, 3), (256, 2), (257, 1), (512, 1)];
    let high =
        [(1 << 32, 1), (1 << 56, 1), ((1 << 56) + 1, 1), (last - 1, 8), (last, 1), (last, 8)];
    let pairs: Vec<(u64, u64)> = pairs.into_iter().chain(high).collect();
    for (at, &(number, coordinator)) in pairs.iter().enumerate() {
        for (other, &(next, by)) in pairs.iter().enumerate().skip(1) {
            let mut room = Room::started();
            room.set(0, number);
            room.set(1, coordinator);
            let due = if other > at { 0 } else { 14 };
            assert_eq!(
                room.replay(&record(next, by)),
                due,
                "{next}, {by} after {number}, {coordinator}"
            );
        }
    }
}

#[test]
fn no_pair_is_too_high_to_stand_in_a_copy() {
    let mut room = Room::started();
    room.set(0, u64::MAX);
    room.set(1, 9);
    assert_eq!(room.replay(&bytes_of(&merged(u64::MAX, 8, &[]))), 14);
    assert_eq!(room.value(3), Ok([0, 0, u64::MAX, 9]));
    room.set(1, 7);
    assert_eq!(room.replay(&bytes_of(&merged(u64::MAX, 8, &[]))), 0);
    assert_eq!(room.value(3), Ok([0, 0, u64::MAX, 8]));
}

#[test]
fn a_malformed_record_is_never_14() {
    let mut room = Room::started();
    let record = bytes_of(&merged(5, 1, &[(5, 700, 0)]));
    assert_eq!(room.replay(&record), 0);
    assert_eq!(room.replay(&record), 14);
    for words in no_records(1) {
        assert_eq!(room.replay(&bytes_of(&words)), 2, "{words:?}");
    }
    for length in (0..record.len()).chain([record.len() + 1, record.len() + 8]) {
        let longer = [record.clone(), vec![0; 8]].concat();
        assert_eq!(room.replay(&longer[..length]), 2, "{length}");
    }
    let mut short = Room { copy: room.copy[..32_776].to_vec() };
    assert_eq!(short.replay(&record), 2);
}

#[test]
fn no_words_that_are_no_merged_record_are_replayed_or_written() {
    for words in no_records(9) {
        assert!(parse_merged(&words).is_err());
        assert_eq!(Room::started().replay(&bytes_of(&words)), 2, "{words:?}");
        for room in [8 * words.len(), 0, 72, 96] {
            assert_eq!(written(&words, room), Err(2), "{words:?} in {room}");
        }
    }
}

#[test]
fn no_buffer_of_another_length_is_written() {
    for writes in [0, 1, 2, 127, 128] {
        let words = merged(3, 2, &many(writes));
        let exact = 8 * words.len();
        for room in (0..=exact + 24).chain([8 * exact, 4_096, 3_144, 3_168]) {
            match written(&words, room) {
                Ok(bytes) => assert_eq!((room, bytes), (exact, bytes_of(&words))),
                Err(refused) => assert_eq!((refused, room == exact), (2, false), "{room}"),
            }
        }
        assert!(written(&words, exact).is_ok());
    }
}

#[test]
fn no_record_is_lost_there_and_back() {
    for words in good_records() {
        let bytes = written(&words, 8 * words.len()).unwrap();
        assert_eq!(record_words(&bytes), Ok(words.clone()));
        let (mut by_bytes, mut by_words) = (Room::started(), Copy::start());
        assert_eq!(by_bytes.replay(&bytes), 0);
        assert!(by_words.replay(&words).is_ok());
        for key in 0..2_048 {
            let (value, pair) = by_words.value(key).unwrap();
            let due = [value.start, value.length, pair.number, pair.coordinator];
            assert_eq!(by_bytes.value(key), Ok(due));
        }
    }
}

#[test]
fn no_second_byte_string_stands_for_a_record() {
    for words in good_records() {
        let bytes = bytes_of(&words);
        for other in others(&bytes) {
            assert_ne!(other, bytes);
            match record_words(&other) {
                Ok(taken) => {
                    assert_ne!(taken, words);
                    // What can be taken is written back as it came.
                    assert!(
                        written(&taken, other.len()).is_ok_and(|back| back == other)
                            || parse_merged(&taken).is_err()
                    );
                }
                Err(refusal) => assert_eq!(refusal.number(), 2),
            }
        }
    }
}

#[test]
fn a_replay_never_touches_another_key() {
    let mut room = Room { copy: pattern(32_784) };
    room.set(0, 5);
    let before = words_of(&room.copy);
    assert_eq!(room.replay(&bytes_of(&merged(6, 3, &[(0, 1, 2), (9, 3, 4), (2_047, 5, 6)]))), 0);
    let mut due = before;
    (due[0], due[1]) = (6, 3);
    for (at, words) in [(2, [1, 2]), (20, [3, 4]), (4_096, [5, 6])] {
        due[at..at + 2].copy_from_slice(&words);
    }
    assert!(words_of(&room.copy) == due);
    assert_eq!(room.replay(&bytes_of(&merged(7, 3, &[]))), 0);
    due[0] = 7;
    assert!(words_of(&room.copy) == due);
}
