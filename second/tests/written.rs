//! Records written to bytes in probes and in random lists of calls (Q1.8, Q1.9).

mod common;

use std::collections::BTreeSet;

use common::bytes::{bytes_of, many, merged};
use common::probed::House;
use second::fuzz;
use second::probe::{random, sums};
use second::tally::Tally;

fn sum(bytes: &[u8]) -> u64 {
    bytes.iter().fold(0, |sum, &byte| sums::more(sum, u64::from(byte)))
}

/// The pattern that a buffer of so many bytes is filled with.
fn blank(room: u64) -> Vec<u8> {
    (0..room).map(|place| (sums::more(place, 9) % 256) as u8).collect()
}

/// What stands behind the `;`.
fn left(written: u64, buffer: &[u8]) -> String {
    format!("{written} {} 1 0", sum(buffer))
}

/// A house with these words in hand.
fn holding(words: &[u64]) -> House {
    let mut house = House::of(1);
    house.say(&format!("cut {}", words.len()));
    for (place, word) in words.iter().enumerate() {
        house.say(&format!("word {place} {word}"));
    }
    house
}

/// The bytes of a record that was emitted: the save of start 700 and length 12 under key 5.
fn emitted() -> House {
    let mut house = House::of(1);
    let begun = ["begin 1", "write 1 4294967297 5 700 12", "commit 1 4294967297"];
    for line in begun.into_iter().chain(["install 1", "record 1 1", "merge", "emit", "record 0 1"])
    {
        assert!(house.say(line).starts_with("ok"), "{line}");
    }
    house
}

#[test]
fn no_record_that_was_emitted_is_written_to_other_bytes() {
    let mut house = emitted();
    assert_eq!(house.say("bytes 96"), "ok");
    assert_eq!(house.left, left(96, &bytes_of(&merged(1, 1, &[(5, 700, 12)]))));
    // The words in hand stay, and no state or room bears on them.
    for line in ["room 0", "house 3", "bytes 0"] {
        house.say(line);
    }
    assert_eq!(house.outcome, "refused 2", "a house begins with nothing in hand");
    let mut house = emitted();
    house.say("room 0");
    assert_eq!(house.say("bytes 96"), "ok");
    assert_eq!(house.say("replay 1"), "ok 1 1");
}

#[test]
fn no_line_of_a_record_to_bytes_prints_anything_else() {
    let words = merged(7, 2, &many(128));
    let mut house = holding(&words);
    assert_eq!(house.say("bytes 3144"), "ok");
    assert_eq!(house.left, left(3_144, &bytes_of(&words)));
    for (room, lent) in
        [(0, 0), (1, 1), (393, 393), (3_143, 3_143), (3_145, 3_145), (3_152, 3_152), (4_096, 4_096)]
    {
        assert_eq!(house.say(&format!("bytes {room}")), "refused 2", "{room}");
        assert_eq!(house.left, left(0, &blank(lent)), "{room}");
    }
    for room in [4_097, 8_192, u64::MAX] {
        assert_eq!(house.say(&format!("bytes {room}")), "refused 2", "{room}");
        assert_eq!(house.left, left(0, &blank(4_096)), "{room}");
    }
    for remark in ["bytes", "bytes 1 2", "bytes 3144 3144"] {
        assert_eq!(house.say(remark), "", "{remark}");
        assert_eq!(house.left, "", "{remark}");
    }
    house.say("word 0 392");
    assert_eq!(house.say("bytes 3144"), "refused 2");
    house.say("word 0 393");
    assert_eq!(house.say("bytes 3144"), "ok");
}

#[test]
fn no_part_state_or_message_is_written_to_bytes() {
    let transaction = (1u64 << 32) + 1;
    for words in [
        vec![12, 1, 1, 1, 1, transaction, 1, 1, 9, 5, 700, 12],
        vec![9, 2, 1, 1, 0, 0, 0, 0, 0],
        vec![10, 1, 1, 2, 1, transaction, 0, 0, 0, 0],
        vec![10, 3, 1, 2, 1, transaction, 0, 3, 0, 0],
        vec![],
    ] {
        let room = 8 * words.len() as u64;
        let mut house = holding(&words);
        assert_eq!(house.say(&format!("bytes {room}")), "refused 2", "{words:?}");
        assert_eq!(house.left, left(0, &blank(room)));
    }
}

#[test]
fn random_probes_write_records_to_bytes_and_are_refused() {
    let mut met = BTreeSet::new();
    for text in (1..=8).map(|seed| random::probe(seed, 1_500)) {
        let mut house = House::of(1);
        for line in text.lines() {
            let outcome = house.say(line).to_string();
            if line.starts_with("bytes ") {
                met.insert(outcome);
            }
        }
    }
    assert_eq!(met.into_iter().collect::<Vec<_>>(), ["ok", "refused 2"]);
}

#[test]
fn random_lists_reach_each_refusal_in_bytes_and_no_other() {
    let mut tally = Tally::default();
    for seed in 1..=30 {
        tally.add(&fuzz::run(seed, 600, false));
    }
    let outcomes = ["ok", "refused  2", "refused 14"];
    for (what, possible) in [("record bytes", 2), ("byte replay", 3), ("byte value", 2)] {
        for (place, outcome) in outcomes.into_iter().enumerate() {
            let count = tally.get(what, outcome);
            assert_eq!(count > 0, place < possible, "{what}, {outcome}: {count}");
        }
    }
}
