//! Values of start and length: what does not fit, and that no start is ever shown with the
//! length of another write (Q12.1 to Q12.9).

mod common;

use common::stages::*;
use common::*;
use second::answer::{Pair, Refusal};
use second::copy::Copy;
use second::merger::Merger;
use second::site::{Found, Site};
use second::table::even;
use second::value::{Value, FRESH};

const LAST: u64 = u64::MAX;

/// Sums of 2^64 − 1, and one above each.
const FITTING: [Value; 5] = [
    Value::new(0, LAST),
    Value::new(LAST, 0),
    Value::new(1, LAST - 1),
    Value::new(LAST - 1, 1),
    Value::new(1 << 63, (1 << 63) - 1),
];
const LONG: [Value; 6] = [
    Value::new(1, LAST),
    Value::new(LAST, 1),
    Value::new(2, LAST - 1),
    Value::new(1 << 63, 1 << 63),
    Value::new(LAST - 4, 12),
    Value::new(LAST, LAST),
];

/// Site 1 of two, with T and another transaction.
fn two_begun() -> (Site, u64) {
    let mut one = site(2, 1);
    assert_eq!(one.begin(HOUSE), Ok(T));
    let other = one.begin(HOUSE).unwrap();
    (one, other)
}

fn refuses(site: &Site, transaction: u64, key: u64, number: u64) {
    for value in LONG {
        refused(site, 0, number, |site, _| site.write(transaction, key, value));
    }
}

/// A lone save at a site; the words of its part.
fn save(site: &mut Site, key: u64, value: Value) -> Vec<u64> {
    let transaction = site.begin(HOUSE).unwrap();
    site.write(transaction, key, value).unwrap();
    site.commit(transaction, &mut buffer()).unwrap();
    let mut out = vec![0; 57];
    let words = site.install(&mut out).unwrap().words;
    out[..words].to_vec()
}

#[test]
fn no_value_with_a_sum_above_the_end_is_written() {
    let (mut one, _) = two_begun();
    refuses(&one, T, 5, 29);
    for value in FITTING {
        assert_eq!(one.write(T, 5, value), Ok(()), "{value}");
        assert_eq!(one.read(T, 5), Ok(value));
        refuses(&one, T, 5, 29);
        refuses(&one, T, 6, 29);
    }
}

#[test]
fn a_refused_rewrite_leaves_the_own_value() {
    let (mut one, _) = two_begun();
    one.write(T, 5, Value::new(7, 8)).unwrap();
    for value in LONG {
        assert_eq!(one.write(T, 5, value), Err(Refusal::DoesNotFit));
        assert_eq!(one.read(T, 5), Ok(Value::new(7, 8)), "{value}");
    }
}

#[test]
fn no_cause_before_gives_way_to_29() {
    let (mut one, other) = two_begun();
    refuses(&one, T, 2_048, 2);
    refuses(&one, T, 256, 3);
    refuses(&one, T + 7, 5, 5);
    one.write(other, 5, bare(1)).unwrap();
    refuses(&one, T, 5, 9);
    one.commit(other, &mut buffer()).unwrap();
    one.install(&mut buffer()).unwrap();
    refuses(&one, T, 5, 10);
    (10..26).for_each(|key| one.write(T, key, bare(key)).unwrap());
    refuses(&one, T, 5, 10);
    refuses(&one, T, 6, 11);
    refuses(&one, T, 10, 29);
    for _ in 0..32 {
        save(&mut one, 100, bare(1));
    }
    refuses(&one, T, 5, 8);
    refuses(&one, T, 6, 8);
    refuses(&one, T, 10, 29);
    let mut late = one.clone();
    late.commit(T, &mut buffer()).unwrap();
    refuses(&late, T, 10, 5);
    for site in participants().into_iter().skip(1) {
        refuses(&site, T, 256, 27);
    }
}

#[test]
fn the_fifth_key_for_proofing_is_refused_before_its_value() {
    let mut one = site(1, 1);
    one.begin(PROOFING).unwrap();
    (0..4).for_each(|key| one.write(T, key, bare(key)).unwrap());
    refuses(&one, T, 4, 11);
    refuses(&one, T, 3, 29);
}

#[test]
fn forgetting_never_drops_or_mixes_a_length() {
    let mut one = site(1, 1);
    let values = |save: u64| Value::new(1_000 + save, [0, 7, LAST / 2 - save][save as usize % 3]);
    for install in 1..=70 {
        save(&mut one, 5 + install % 2, values(install));
        let forgotten =
            |key: u64| (1..=install.saturating_sub(32)).rev().find(|n| 5 + n % 2 == key);
        for key in [5, 6] {
            let due = forgotten(key).map_or(FRESH, values);
            assert_eq!(one.base[key as usize], due, "key {key} after {install}");
            assert_eq!(one.search(0, key), Ok(Found { value: due, looked_at: 0 }));
        }
        assert_eq!((one.base[4], one.base[7]), (FRESH, FRESH), "a neighbour was written");
    }
    let reader = one.begin(HOUSE).unwrap();
    assert_eq!([5, 6].map(|key| one.read(reader, key)), [Ok(values(70)), Ok(values(69))]);
}

#[test]
fn no_copy_shows_a_start_with_the_length_of_another_write() {
    let (mut one, mut merger, mut copy) = (site(1, 1), merger(1), Copy::start());
    let saves = [(700, 12), (900, 0), (0, 7), (0, 0), (1, LAST - 1), (5, 5)];
    assert_eq!(copy.value(5), Ok((FRESH, Pair::default())));
    for (number, (start, length)) in (1..).zip(saves) {
        let value = Value::new(start, length);
        merger.merge(&save(&mut one, 5, value)).unwrap();
        let mut out = buffer();
        let words = merger.emit(&mut out).unwrap().words;
        assert_eq!(out[..words], [12, 3, 0, number, 1, T + number - 1, 1, 1, 9, 5, start, length]);
        copy.replay(&out[..words]).unwrap();
        assert_eq!(copy.value(5), Ok((value, Pair::new(number, 1))));
        assert_eq!([4, 6].map(|key| copy.value(key).unwrap().0), [FRESH; 2]);
    }
}

#[test]
fn no_value_of_a_record_stands_behind_another_key() {
    let mut one = site(1, 1);
    one.begin(HOUSE).unwrap();
    for key in [30, 10, 20, 2_047, 0] {
        one.write(T, key, Value::new(key + 1, key + 2)).unwrap();
    }
    one.write(T, 20, Value::new(5, 6)).unwrap();
    one.commit(T, &mut buffer()).unwrap();
    let mut out = vec![9; 57];
    assert_eq!(one.install(&mut out).unwrap().words, 24);
    let writes = [0, 1, 2, 10, 11, 12, 20, 5, 6, 30, 31, 32, 2_047, 2_048, 2_049];
    assert_eq!(out[9..25], [&writes[..], &[9]].concat());
}

/// A part of site 1 and a merged record with the writes of keys 3 and 4.
fn records(values: [Value; 2]) -> [Vec<u64>; 2] {
    let [three, four] = values.map(Value::words);
    let writes = [[3, three[0], three[1]], [4, four[0], four[1]]].concat();
    [(1, 1), (3, 0)].map(|(kind, site)| [&[15, kind, site, 5, 1, T, 1, 2, 9], &writes[..]].concat())
}

#[test]
fn no_record_with_a_long_value_is_taken() {
    for long in LONG {
        for values in [[long, FRESH], [FRESH, long], [long, long]] {
            let [part, merged] = records(values);
            let (mut merger, mut copy) = (merger(2), Copy::start());
            let before = (merger.clone(), copy.clone());
            assert_eq!(merger.merge(&part), Err(Refusal::Impossible), "{part:?}");
            assert_eq!(copy.replay(&merged), Err(Refusal::Impossible), "{merged:?}");
            assert_eq!((merger, copy), before);
        }
    }
    for value in FITTING {
        let [part, merged] = records([value, FRESH]);
        let mut copy = Copy::start();
        assert_eq!(merger(2).merge(&part), Ok(()), "{value}");
        assert_eq!(copy.replay(&merged), Ok(Pair::new(5, 1)));
        assert_eq!(copy.value(3), Ok((value, Pair::new(5, 1))));
        // Behind the last one a long value is 2 too, and 14 is for a good record.
        let again = records([LONG[0], FRESH]);
        assert_eq!(copy.replay(&merged), Err(Refusal::NotAbove));
        assert_eq!(copy.replay(&again[1]), Err(Refusal::Impossible));
    }
}

#[test]
fn the_words_of_base_and_copy_are_not_asked_to_fit() {
    let (mut one, mut copy) = (site(1, 1), Copy::start());
    for (key, value) in (5..).zip(LONG) {
        (one.base[key], copy.values[key]) = (value, value);
    }
    one.begin(HOUSE).unwrap();
    copy.replay(&records([FRESH, FRESH])[1]).unwrap();
    for (key, value) in (5..).zip(LONG) {
        assert_eq!(one.read(T, key), Ok(value));
        assert_eq!(one.search(0, key), Ok(Found { value, looked_at: 0 }));
        assert_eq!(copy.value(key), Ok((value, Pair::new(5, 1))));
    }
}

#[test]
fn no_part_is_longer_than_57_words_and_no_merged_record_than_393() {
    let mut merger = Merger::start(8, &even(8)).unwrap();
    for own in 1..=8 {
        let mut words = vec![57, 1, own, 5, 1, T, 255, 16, 9];
        (0..16).for_each(|key| words.extend([256 * (own - 1) + key, own, key]));
        assert_eq!(merger.merge(&words), Ok(()), "{own}");
        words.extend([256 * (own - 1) + 16, 0, 0]);
        (words[0], words[7], words[3]) = (60, 17, 6);
        assert_eq!(merger.merge(&words), Err(Refusal::Impossible));
    }
    assert_eq!(merger.emit(&mut [0; 392]), Err(Refusal::BufferTooShort));
    let mut out = [0; 393];
    assert_eq!(merger.emit(&mut out).unwrap().words, 393);
    let mut copy = Copy::start();
    assert_eq!(copy.replay(&out), Ok(Pair::new(5, 1)));
    assert_eq!(copy.value(1_807).unwrap().0, Value::new(8, 15));
}

#[test]
fn no_line_writes_a_start_without_a_length() {
    play(
        "sites 1
         begin 1 => ok 4294967297
         write 1 4294967297 5 => refused 2
         write 1 4294967297 5 700 => refused 2
         write 1 4294967297 5 700 0 0 => refused 2
         write 1 4294967297 5 700 x => refused 2
         write 1 4294967297 5 700 18446744073709551616 => refused 2
         read 1 4294967297 5 => ok 0 0
         write 1 4294967297 5 700 12
         read 1 4294967297 5 => ok 700 12
         write 1 4294967297 5 700 18446744073709550916 => refused 29
         write 1 4294967297 5 700 18446744073709550915
         read 1 4294967297 5 => ok 700 18446744073709550915
         value 1 5 => ok 0 0 0 0
         commit 4294967297 => ok 1
         install 1 => ok 1 1
         merge 1
         emit => ok 1 1 4294967297
         replay 1 => ok 1 1
         value 1 5 => ok 700 18446744073709550915 1 1",
    );
}
