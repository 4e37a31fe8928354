//! Tables in probes: lent at starts, poked in states that calls are handed (Q3.4, Q3.5).

mod common;

use std::collections::BTreeSet;

use common::probed::House;
use second::probe::{random, sums};

const T: u64 = (1 << 32) + 1;
const SEEDS: std::ops::RangeInclusive<u64> = 1..=20;

/// Every call of site 1, the start apart.
fn calls() -> [String; 10] {
    [
        "begin 1".to_string(),
        format!("enlist 1 {T} 2"),
        format!("read 1 {T} 3"),
        "search 1 0 3".to_string(),
        format!("write 1 {T} 3 7 0"),
        format!("commit 1 {T}"),
        format!("abandon 1 {T}"),
        "message 1".to_string(),
        "install 1".to_string(),
        "report 1".to_string(),
    ]
}

/// Field, value and value before, of a house of three with the table 0, 256, 512.
const FAULTS: [(u64, u64, u64); 14] = [
    (31, 1, 0),
    (31, 255, 0),
    (32, 0, 256),
    (32, 512, 256),
    (32, 513, 256),
    (33, 256, 512),
    (33, 255, 512),
    (33, 2_048, 512),
    (33, u64::MAX, 512),
    (34, 1, 0),
    (34, 768, 0),
    (38, 1, 0),
    (0, 2, 3),
    (0, 4, 3),
];

#[test]
fn no_site_with_a_bad_table_is_called() {
    let mut house = House::after(3, &["begin 1"]);
    for (field, value, before) in FAULTS {
        house.say(&format!("site 1 {field} {value}"));
        for call in calls() {
            assert_eq!(house.say(&call), "refused 2", "{call} with {field} {value}");
            assert!(house.left.ends_with(" 1 0"), "{call} alters nothing");
        }
        assert_eq!(house.say("report 2"), "ok 0", "another site has its own table");
        house.say(&format!("site 1 {field} {before}"));
        assert_eq!(house.say(&format!("read 1 {T} 255")), "ok 0 0", "{field} {before}");
        assert_eq!(house.say(&format!("read 1 {T} 256")), "refused 3");
    }
}

#[test]
fn no_merger_with_a_bad_table_is_called() {
    let mut house = House::after(3, &["form 2 1 0 0"]);
    for (field, value, before) in FAULTS {
        house.say(&format!("merger {field} {value}"));
        for call in ["merge", "emit"] {
            assert_eq!(house.say(call), "refused 2", "{call} with {field} {value}");
        }
        house.say(&format!("merger {field} {before}"));
        assert_eq!(house.say("merge"), "ok", "{field} {before}");
        assert_eq!(house.say("emit"), "refused 17");
    }
    house.say("merger 30 5");
    house.say("merger 39 5");
    assert_eq!(house.say("merge"), "ok", "there is no such first key");
}

#[test]
fn another_good_table_is_followed() {
    let mut house = House::after(3, &["begin 1", "site 1 32 300"]);
    assert_eq!(house.say(&format!("write 1 {T} 299 7 0")), "ok");
    assert_eq!(house.say(&format!("write 1 {T} 300 7 0")), "refused 3");
    house.say("site 1 32 256");
    assert_eq!(house.say("report 1"), "refused 2", "the part has a key of another site");
    house.say("site 1 32 300");
    assert_eq!(house.say("report 1"), "ok 0");
}

/// Q3.5 speaks of the places behind the sites: one site more has a place less.
#[test]
fn another_count_goes_with_another_table() {
    let mut house = House::after(3, &["begin 1", "site 1 0 4", "site 1 34 768"]);
    assert_eq!(house.say(&format!("enlist 1 {T} 4")), "ok");
    house.say("site 1 0 3");
    house.say("site 1 34 0");
    assert_eq!(house.say("report 1"), "refused 2", "the mask has site 4");
    let mut fewer = House::after(3, &["begin 2", "site 2 0 2", "site 2 33 0"]);
    assert_eq!(fewer.say("read 2 8589934593 2047"), "ok 0 0");
    assert_eq!(fewer.say("enlist 2 8589934593 3"), "refused 2");
}

#[test]
fn a_queued_part_follows_the_mergers_table() {
    let form = format!("form 1 2 5 {T}");
    let mut house = House::after(3, &[&form, "word 6 3", "writes 1 300 7 0", "merge"]);
    assert_eq!(house.outcome, "ok");
    for (first, due) in [(301, "refused 2"), (300, "refused 17"), (1, "refused 17")] {
        house.say(&format!("merger 32 {first}"));
        assert_eq!(house.say("emit"), due, "{first}");
    }
    house.say("merger 33 300");
    assert_eq!(house.say("emit"), "refused 2", "the key is of site 3");
    house.say("merger 33 301");
    assert_eq!(house.say("emit"), "refused 17");
}

#[test]
fn a_start_is_lent_the_table() {
    let mut house = House::of(2);
    for (line, start, open) in [
        ("table 2 0", "refused 22", "refused 22"),
        ("table 2 2048", "refused 22", "refused 22"),
        ("tables 1", "refused 2", "refused 2"),
        ("tables 3", "refused 2", "refused 2"),
        ("tables 0", "refused 2", "refused 2"),
        ("tables 2", "refused 22", "refused 22"),
        ("base 4095", "refused 2", "refused 22"),
        ("base 4096", "refused 22", "refused 22"),
        ("lists 0", "refused 2", "refused 22"),
        ("lists 18048", "refused 22", "refused 22"),
        ("queues 7297", "refused 22", "refused 2"),
        ("queues 7296", "refused 22", "refused 22"),
        ("table 1 9", "refused 22", "refused 22"),
        ("table 1 0", "refused 22", "refused 22"),
        ("table 0 5", "refused 22", "refused 22"),
        ("table 10 5", "refused 22", "refused 22"),
        ("table 2 2047", "ok", "ok"),
    ] {
        assert_eq!(house.say(line), "");
        assert_eq!(house.say("start 1 2 1"), start, "{line}");
        assert_eq!(house.say("open 2"), open, "{line}");
        assert_eq!(house.say("start 1 2 3"), "refused 2", "{line}");
    }
    assert_eq!(house.say("search 1 0 2046"), "ok 0 0 0");
    assert_eq!(house.say("search 1 0 2047"), "refused 3");
}

#[test]
fn a_house_that_cannot_start_is_a_remark() {
    let mut house = House::after(3, &["begin 1"]);
    for line in ["house 0", "house 9", "table 2 0", "house 3", "house 2", "merger 9"] {
        assert_eq!(house.say(line), "");
    }
    assert_eq!(house.say("begin 1"), format!("ok {}", T + 1), "the house before still stands");
    house.say("house 1");
    assert_eq!(house.say("begin 1"), format!("ok {T}"));
    assert_eq!(house.say("read 1 4294967297 2047"), "ok 0 0");
    house.say("table 2 7");
    house.say("house 2");
    assert_eq!(house.say("search 2 0 7"), "ok 0 0 0", "the words stay as set");
}

/// After each `house` the table is again as long as the start's number of sites.
#[test]
fn a_length_of_the_table_ends_with_its_house() {
    let mut house = House::after(2, &["tables 1"]);
    assert_eq!(house.say("open 2"), "refused 2");
    assert_eq!(house.say("open 1"), "ok");
    house.say("house 3");
    assert_eq!(house.say("open 2"), "ok");
    assert_eq!(house.say("open 8"), "ok");
    assert_eq!(house.say("open 9"), "refused 2");
    house.say("tables 100");
    assert_eq!(house.say("open 9"), "refused 2");
}

/// The number of sites, the eight first keys, then the rest as it was.
#[test]
fn a_checksum_begins_with_the_table() {
    let mut house = House::after(3, &["table 2 5", "table 3 9", "house 3", "report 2"]);
    let mut words = vec![0, 5, 9, 0, 0, 0, 0, 0, 2];
    words.resize(words.len() + 3 + 16 + 2 + 4_096, 0);
    assert!(house.left.ends_with(&format!(" 1 {}", sums::words(3, &words))));
    house.say("open 3");
    let mut words = vec![0, 5, 9, 0, 0, 0, 0, 0];
    words.resize(words.len() + 32 + 7_296 + 1, 0);
    assert!(house.left.ends_with(&format!(" 1 {}", sums::words(3, &words))));
}

#[test]
fn random_probes_meet_bad_tables_at_starts_and_in_states() {
    let mut met = BTreeSet::new();
    for seed in SEEDS {
        let mut house = House::of(1);
        for line in random::probe(seed, 1_500).lines() {
            let words: Vec<&str> = line.split(' ').collect();
            let outcome = house.say(line).to_string();
            match words.as_slice() {
                [verb @ ("start" | "open"), ..] => met.insert((verb.to_string(), outcome)),
                ["table", place, _] => met.insert(("table".to_string(), place.to_string())),
                ["site", _, field, _] => met.insert(("site".to_string(), field.to_string())),
                ["merger", field, _] => met.insert(("merger".to_string(), field.to_string())),
                _ => false,
            };
        }
    }
    let has = |what: &str, value: &str| met.contains(&(what.to_string(), value.to_string()));
    for outcome in ["ok", "refused 2", "refused 22"] {
        assert!(has("start", outcome) && has("open", outcome), "{outcome}");
    }
    for place in 1..=8 {
        assert!(has("table", &place.to_string()), "table {place}");
        assert!(has("site", &format!("3{place}")), "site 3{place}");
        assert!(has("merger", &format!("3{place}")), "merger 3{place}");
    }
}
