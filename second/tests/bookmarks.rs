//! Pages with the bytes left over (Q8.1 to Q8.9): places, ways back and runs.

mod common;

use std::collections::BTreeSet;

use common::probed::House;
use second::answer::Refusal;
use second::bookmarks::{offset, page, pages, Place};
use second::fuzz;
use second::probe::{random, sums, triples};
use second::tally::Tally;

const LAST: u64 = u64::MAX;
/// Page lengths of which none is 0.
const LENGTHS: [u64; 7] = [1, 2, 3, 1_800, 1 << 32, 1 << 63, LAST];

const WRONG: Result<u64, Refusal> = Err(Refusal::Impossible);
const NO_LENGTH: Result<u64, Refusal> = Err(Refusal::NoPageLength);

fn back(length: u64, page: u64, rest: u64) -> Result<u64, Refusal> {
    offset(length, Place::new(page, rest))
}

/// The first and the last byte of pages, and of all bytes.
fn offsets(length: u64) -> [u64; 6] {
    [0, 1, length - 1, length, LAST - 1, LAST]
}

#[test]
fn the_rest_is_never_given_for_the_page() {
    for (length, at, due) in [
        (1_800, 0, (0, 0)),
        (1_800, 1_799, (0, 1_799)),
        (1_800, 1_800, (1, 0)),
        (1_800, 3_601, (2, 1)),
        (1_800, LAST, (10_248_191_152_060_862, 15)),
        (1, 7, (7, 0)),
        (1, LAST, (LAST, 0)),
        (2, LAST, ((1 << 63) - 1, 1)),
        (3, LAST, (6_148_914_691_236_517_205, 0)),
        (1 << 32, LAST, ((1 << 32) - 1, (1 << 32) - 1)),
        (1 << 63, (1 << 63) - 1, (0, (1 << 63) - 1)),
        (1 << 63, LAST, (1, (1 << 63) - 1)),
        (LAST, LAST - 1, (0, LAST - 1)),
        (LAST, LAST, (1, 0)),
        // A float keeps 53 bits and rounds these offsets.
        (1, (1 << 53) + 1, ((1 << 53) + 1, 0)),
        (3, (1 << 60) + 2, (384_307_168_202_282_326, 0)),
    ] {
        assert_eq!(page(length, at), Ok(Place::new(due.0, due.1)), "{length} {at}");
        assert_eq!(back(length, due.0, due.1), Ok(at), "{length} {at}");
    }
    assert_eq!(Refusal::NoPageLength.number(), 28);
}

#[test]
fn no_offset_is_lost_there_and_back() {
    for length in LENGTHS {
        for at in offsets(length) {
            let place = page(length, at).unwrap();
            assert!(place.rest < length, "{length} {at}");
            assert_eq!(offset(length, place), Ok(at), "{length} {at}");
        }
    }
}

#[test]
fn no_place_is_lost_back_and_there() {
    for length in LENGTHS {
        for number in [0, 1, 2, LAST / length - 1, LAST / length] {
            for rest in [0, length / 2, length - 1] {
                // The same sum of numbers, asked without a product.
                let passes = number > (LAST - rest) / length;
                let given = back(length, number, rest);
                assert_eq!(given.is_err(), passes, "{length} {number} {rest}");
                if let Ok(at) = given {
                    assert_eq!(page(length, at), Ok(Place::new(number, rest)), "{length} {at}");
                }
            }
        }
    }
}

#[test]
fn no_way_back_passes_the_last_offset() {
    for length in LENGTHS {
        let last = page(length, LAST).unwrap();
        assert_eq!(offset(length, last), Ok(LAST), "{length}");
        // 2^64 is the next byte of that page, or the first of the next.
        if last.rest + 1 < length {
            assert_eq!(back(length, last.page, last.rest + 1), WRONG, "{length}");
        }
        if last.page < LAST {
            assert_eq!(back(length, last.page + 1, 0), WRONG, "{length}");
        }
        if length > 1 {
            assert_eq!(back(length, LAST, length - 1), WRONG, "{length}");
            assert_eq!(back(length, LAST, 0), WRONG, "{length}");
        }
    }
    assert_eq!(back(1, LAST, 0), Ok(LAST));
    assert_eq!(back(2, LAST / 2, 1), Ok(LAST));
    assert_eq!(back(2, 1 << 63, 0), WRONG);
    // The sum alone passes: the product is LAST − 15.
    assert_eq!(back(1_800, 10_248_191_152_060_862, 15), Ok(LAST));
    assert_eq!(back(1_800, 10_248_191_152_060_862, 16), WRONG);
    assert_eq!(back(1_800, 10_248_191_152_060_862, 1_799), WRONG);
}

#[test]
fn no_product_that_wraps_to_a_small_number_is_answered() {
    for (length, number) in [
        (1 << 32, 1 << 32),
        (1 << 32, (1 << 32) + 1),
        (1 << 32, LAST),
        (1 << 63, 2),
        (1 << 63, 3),
        (1 << 63, LAST),
        (3, 6_148_914_691_236_517_206),
        (1_800, 10_248_191_152_060_863),
        (LAST, 2),
        (LAST, LAST),
    ] {
        for rest in [0, 1, length - 1] {
            assert_eq!(back(length, number, rest), WRONG, "{length} {number} {rest}");
        }
    }
}

#[test]
fn no_rest_reaches_the_page_length() {
    for length in LENGTHS {
        assert_eq!(back(length, 0, length - 1), Ok(length - 1), "{length}");
        assert_eq!(back(length, 0, length), WRONG, "{length}");
        assert_eq!(back(length, 0, LAST), WRONG, "{length}");
        assert_eq!(back(length, LAST, length), WRONG, "{length}");
    }
    assert_eq!(back(1_800, 1, 1_801), WRONG);
    assert_eq!(back(1, 5, 1), WRONG);
}

#[test]
fn a_page_length_of_0_is_28_whatever_else_is_wrong_with_a_place() {
    for at in [0, 1, 1_800, LAST] {
        assert_eq!(page(0, at), Err(Refusal::NoPageLength));
    }
    // A rest is never below 0; the last page times any other length passes 2^64 − 1.
    for (number, rest) in [(0, 0), (0, 1), (1, 0), (LAST, 0), (0, LAST), (LAST, LAST)] {
        assert_eq!(back(0, number, rest), NO_LENGTH, "{number} {rest}");
    }
}

/// The buffer after a run; a refused one has left it as it was.
fn run(length: u64, offsets: &[u64], room: usize) -> Result<Vec<u64>, u64> {
    let blank: Vec<u64> = (0..room as u64).map(|word| LAST - 7 * word).collect();
    let mut out = blank.clone();
    let answer = pages(length, offsets, &mut out);
    if answer.is_err() {
        assert_eq!(out, blank, "a refused run altered its buffer");
    }
    answer.map(|()| out).map_err(Refusal::number)
}

#[test]
fn no_offset_of_a_run_is_converted_otherwise_than_alone() {
    assert_eq!(run(1_800, &[], 0), Ok(vec![]));
    assert_eq!(run(1_800, &[3_601], 2), Ok(vec![2, 1]));
    assert_eq!(run(5, &[17, 4, 5, 0], 8), Ok(vec![3, 2, 0, 4, 1, 0, 0, 0]));
    for length in LENGTHS {
        let many: Vec<u64> = offsets(length).repeat(50);
        let due: Vec<u64> = (many.iter())
            .map(|&at| page(length, at).unwrap())
            .flat_map(|place| [place.page, place.rest])
            .collect();
        assert_eq!(run(length, &many, 600), Ok(due), "{length}");
    }
}

#[test]
fn no_run_takes_a_buffer_that_is_not_twice_as_long() {
    let offsets: Vec<u64> = (0..300).map(|one| one * 1_000).collect();
    for count in [0, 1, 2, 3, 300] {
        let run = |room: usize| run(1_800, &offsets[..count], room);
        assert!(run(2 * count).is_ok());
        let lengths = [0, 1, count, 2 * count + 1, 2 * count + 2, 4 * count, 8_192];
        let short = (2 * count).checked_sub(1);
        for room in lengths.into_iter().chain(short).filter(|&room| room != 2 * count) {
            assert_eq!(run(room), Err(2), "{count} offsets in {room} words");
        }
    }
}

#[test]
fn a_page_length_of_0_is_28_behind_a_wrong_buffer() {
    for count in [0, 1, 2, 40] {
        let offsets = vec![9; count];
        assert_eq!(run(0, &offsets, 2 * count), Err(28), "{count}");
        for room in [2 * count + 1, 2 * count + 2, 4 * count + 4] {
            assert_eq!(run(0, &offsets, room), Err(2), "{count} in {room}");
        }
    }
    assert_eq!(run(0, &[9], 1), Err(2));
    assert_eq!(run(0, &[9], 0), Err(2));
}

#[test]
fn no_line_of_a_conversion_prints_anything_else() {
    let mut house = House::of(1);
    for (line, due) in [
        ("page 1800 3601", "ok 2 1"),
        ("page 0 3601", "refused 28"),
        ("offset 1800 2 1", "ok 3601"),
        ("offset 1800 2 1800", "refused 2"),
        ("offset 0 2 1800", "refused 28"),
        ("offset 4294967296 4294967296 0", "refused 2"),
    ] {
        assert_eq!(house.say(line), due, "{line}");
        assert_eq!(house.left, "0 0 1 0", "{line}");
    }
    for remark in ["page", "page 1", "page 1 2 3", "offset 1 2", "run 1", "run 1 2 3"] {
        assert_eq!(house.say(remark), "", "{remark}");
        assert_eq!(house.left, "", "{remark}");
    }
}

/// The pattern that a buffer of so many words is filled with.
fn blank(room: u64) -> Vec<u64> {
    (0..room).map(|place| sums::more(place, 9)).collect()
}

#[test]
fn a_run_of_a_probe_sums_its_own_buffer_and_keeps_nothing() {
    let mut house = House::of(1);
    for line in ["room 1", "cut 2", "word 0 3601", "word 1 1799", "word 2 9"] {
        house.say(line);
    }
    let left = |words: u64, buffer: &[u64]| format!("{words} {} 1 0", sums::words(0, buffer));
    assert_eq!(house.say("run 1800 4"), "ok");
    assert_eq!(house.left, left(4, &[2, 1, 0, 1_799]));
    for (length, room, due, lent) in [
        (1_800, 3, "refused 2", 3),
        (1_800, 5, "refused 2", 5),
        (1_800, 0, "refused 2", 0),
        (1_800, 8_192, "refused 2", 8_192),
        (1_800, 8_193, "refused 2", 8_192),
        (1_800, LAST, "refused 2", 8_192),
        (0, 3, "refused 2", 3),
        (0, 4, "refused 28", 4),
    ] {
        assert_eq!(house.say(&format!("run {length} {room}")), due, "{length} {room}");
        assert_eq!(house.left, left(0, &blank(lent)), "{length} {room}");
    }
    assert_eq!(house.say("record 0 1"), "refused 17");
    assert_eq!(house.say("run 1800 4"), "ok", "the words in hand stay");
    assert_eq!(house.say("word 5 0"), format!("ok 2 {}", sums::words(0, &[3_601, 1_799])));
}

#[test]
fn random_probes_convert_and_are_refused_as_each_call_can_be() {
    let mut met = BTreeSet::new();
    for text in (1..=12).map(|seed| random::probe(seed, 1_500)).chain([triples::probe(1, 500, 0)]) {
        let mut house = House::of(1);
        for line in text.lines() {
            let verb = line.split(' ').next().unwrap_or_default();
            let outcome = house.say(line).split(' ').take(2).collect::<Vec<_>>().join(" ");
            if matches!(verb, "page" | "offset" | "run") {
                let outcome = if outcome.starts_with("ok") { "ok" } else { &outcome };
                met.insert(format!("{verb} {outcome}"));
            }
        }
    }
    let due = ["offset ok", "offset refused 2", "offset refused 28", "page ok", "page refused 28"];
    let due = due.into_iter().chain(["run ok", "run refused 2", "run refused 28"]);
    assert_eq!(met.into_iter().collect::<Vec<_>>(), due.collect::<Vec<_>>());
}

#[test]
fn random_lists_convert_and_are_refused_as_each_call_can_be() {
    let mut tally = Tally::default();
    for seed in 1..=20 {
        tally.add(&fuzz::run(seed, 600, false));
    }
    for (what, outcomes) in [
        ("page", &["ok", "refused 28"][..]),
        ("offset", &["ok", "refused  2", "refused 28"]),
        ("run", &["ok", "refused  2", "refused 28"]),
    ] {
        for outcome in outcomes {
            assert!(tally.get(what, outcome) > 0, "{what} {outcome}");
        }
    }
    assert_eq!(tally.get("page", "refused  2"), 0);
    let conversions = ["page", "offset", "run"].map(|what| tally.get(what, "refused 28"));
    assert_eq!(tally.total("refused 28"), conversions.iter().sum(), "another call gave 28");
}

#[test]
fn a_triple_is_the_same_in_any_piece_and_no_seed_shares_it() {
    let lines = |count, first| -> Vec<String> {
        triples::probe(9, count, first).lines().skip(1).map(str::to_string).collect()
    };
    let (whole, pieces) = (lines(90, 0), [lines(40, 0), lines(50, 40)].concat());
    assert_eq!(whole, pieces);
    assert_ne!(triples::probe(9, 5, 1).lines().nth(1), triples::probe(10, 5, 0).lines().nth(1));
}
