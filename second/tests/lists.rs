//! The generator, the book, random lists of calls and random probes.

mod common;

use std::collections::{BTreeMap, BTreeSet};

use common::probed::House as Probed;
use common::stages::*;
use common::*;
use second::answer::{Refusal, Sent};
use second::book::Book;
use second::copy::Copy;
use second::fuzz;
use second::house::House;
use second::probe::random;
use second::scripts::generate;
use second::sizes::*;
use second::table::{even, Table};
use second::tally::Tally;
use second::value::{Value, FRESH};
use second::world::{Answer, Call};

#[test]
fn a_seed_makes_one_script_and_its_output_can_be_had_again() {
    for seed in 1..20 {
        let script = generate(seed, Some(150));
        assert_eq!(script.text, generate(seed, Some(150)).text);
        let mut house = House::new(());
        let mut output = String::new();
        for line in script.text.strip_suffix('\n').unwrap_or(&script.text).split('\n') {
            let _ = house.line(line.as_bytes(), &mut output);
        }
        assert_eq!(output, script.output, "seed {seed}");
    }
}

#[test]
fn scripts_reach_all_that_they_can() {
    let mut tally = Tally::default();
    for seed in 1..=150 {
        tally.add(&generate(seed, None).tally);
    }
    for number in [2, 22, 3, 5, 27, 7, 8, 9, 10, 11, 29, 12, 15, 17] {
        assert!(tally.get("any line", &format!("refused {number:2}")) > 0, "refusal {number}");
    }
    for number in [1, 4, 6, 26, 13, 14, 16] {
        assert_eq!(tally.get("any line", &format!("refused {number:2}")), 0, "refusal {number}");
    }
    for reason in [12, 18, 19, 20] {
        assert!(tally.get("any line", &format!("ok, abort {reason}")) > 0, "reason {reason}");
    }
    assert_eq!(tally.get("line take", "refused 27"), 0);
    assert!(tally.get("any line", "ok, commits") > 0);
    assert!(tally.get("desk house", "refused 12") > 0);
    assert!(tally.get("desk proofing", "refused 12") > 0);
    assert_both_desks(&tally);
    assert_all_tables(&tally);
    assert_eq!(tally.get("line sites", "ok"), 150);
    assert_eq!(tally.get("line sites", "refused 22"), tally.get("any line", "refused 22"));
}

fn assert_all_tables(tally: &Tally) {
    for kind in ["even", "uneven", "site of one"] {
        assert!(tally.get("table", kind) > 5, "{kind}");
    }
}

/// Both desks begin and meet their limits, at coordinators and at participants; a
/// begin for no desk is refused 2 and with no other number.
fn assert_both_desks(tally: &Tally) {
    for desk in ["desk house", "desk proofing"] {
        assert!(tally.get(desk, "ok") > 100, "{desk}");
    }
    for limit in ["5th written", "17th written"] {
        assert!(tally.get(limit, "coordinator") > 0, "{limit}");
        assert!(tally.get(limit, "participant") > 0, "{limit}");
    }
    assert!(tally.get("desk other", "refused  2") > 10);
    for outcome in ["ok", "refused 12", "refused 13"] {
        assert_eq!(tally.get("desk other", outcome), 0);
    }
}

#[test]
fn random_lists_keep_the_book_and_tell_the_wrong_site_from_the_wrong_stage() {
    let mut tally = Tally::default();
    for seed in 1..=80 {
        tally.add(&fuzz::run(seed, 600, false));
    }
    let mut elsewhere = 0;
    for call in ["enlist", "commit", "abandon"] {
        assert!(tally.get(call, "refused 26") > 0, "{call} at another site");
        assert!(tally.get(call, "refused 27") > 0, "{call} at the wrong stage");
        elsewhere += tally.get(call, "refused 26");
    }
    for call in ["read", "write"] {
        assert!(tally.get(call, "refused 27") > 0, "{call} at the wrong stage");
    }
    assert_eq!(tally.total("refused 26"), elsewhere, "another call gave 26");
    assert_eq!(tally.total("refused  6"), 0, "a call gave 6");
    assert!(tally.get("read", "refused 11") > 0);
    assert_both_desks(&tally);
    assert_all_tables(&tally);
}

const PROBES: std::ops::RangeInclusive<u64> = 1..=12;

/// Calls of random probes with the numbers that refused them.
fn refusals_of_random_probes() -> BTreeSet<(String, String)> {
    let mut met = BTreeSet::new();
    for seed in PROBES {
        let mut house = Probed::of(1);
        for line in random::probe(seed, 1_500).lines() {
            let number = house.say(line).strip_prefix("refused ");
            let verb = line.split(' ').next().unwrap_or_default();
            met.extend(number.map(|number| (verb.to_string(), number.to_string())));
        }
    }
    met
}

#[test]
fn random_probes_meet_26_and_27_in_their_calls_and_6_in_none() {
    let met = refusals_of_random_probes();
    let calls = |number: &str| -> Vec<&str> {
        met.iter().filter(|it| it.1 == number).map(|it| it.0.as_str()).collect()
    };
    assert_eq!(calls("26"), ["abandon", "commit", "enlist"]);
    assert_eq!(calls("27"), ["abandon", "commit", "enlist", "message", "read", "write"]);
    assert!(calls("6").is_empty());
}

#[test]
fn random_searches_are_refused_with_no_number_but_2_and_3() {
    let met = refusals_of_random_probes();
    let searches: Vec<&str> =
        met.iter().filter(|it| it.0 == "search").map(|it| it.1.as_str()).collect();
    assert_eq!(searches, ["2", "3"]);
}

/// Pokes of a desk or of a count of written keys, and begins with a desk.
fn desks_of_random_probes() -> BTreeSet<(String, u64)> {
    let texts = PROBES.map(|seed| random::probe(seed, 1_500));
    let mut met = BTreeSet::new();
    for text in texts {
        for words in text.lines().map(|line| line.split(' ').collect::<Vec<_>>()) {
            let (what, value) = match words.as_slice() {
                ["begin", _, desk] => ("begin", *desk),
                ["live", _, _, field @ ("9" | "10"), value] => (*field, *value),
                ["word", "7", desk] => ("word", *desk),
                _ => continue,
            };
            met.insert((what.to_string(), value.parse().unwrap()));
        }
    }
    met
}

#[test]
fn random_probes_poke_desks_and_counts_around_both_limits() {
    let met = desks_of_random_probes();
    for (what, values) in [
        ("begin", &[0, 1, 2, u64::MAX][..]),
        ("9", &[4, 5, 16, 17]),
        ("10", &[0, 1, 2]),
        ("word", &[0, 1, 2]),
    ] {
        for &value in values {
            assert!(met.contains(&(what.to_string(), value)), "{what} {value}");
        }
    }
}

/// Where a search that is answered ends.
#[derive(Clone, Copy, PartialEq, Eq, PartialOrd, Ord, Debug)]
enum End {
    NothingVisible,
    NoHit,
    Newest,
    Between,
    Oldest,
}

/// Value and count of a search that is answered.
fn found(house: &mut Probed, [site, snapshot, key]: [u64; 3]) -> Option<(Value, u64)> {
    let outcome = house.say(&format!("search {site} {snapshot} {key}")).strip_prefix("ok ")?;
    let words: Vec<u64> = outcome.split(' ').map(|word| word.parse().unwrap()).collect();
    let &[start, length, count] = words.as_slice() else { return None };
    Some((Value::new(start, length), count))
}

/// The last key of each site, as the lines before the last `house` say.
fn lasts_of(probe: &str) -> Vec<u64> {
    let (head, tail) = probe.rsplit_once("house ").unwrap();
    let sites: u64 = tail.lines().next().unwrap().parse().unwrap();
    let mut firsts = even(8);
    for line in head.lines().filter_map(|line| line.strip_prefix("table ")) {
        let (place, first) = line.split_once(' ').unwrap();
        firsts[place.parse::<usize>().unwrap() - 1] = first.parse().unwrap();
    }
    let table = Table::start(sites, &firsts[..sites as usize]).unwrap();
    (1..=sites).map(|site| table.keys(site).end - 1).collect()
}

/// A version that equals the base value is taken for no hit.
fn end_of(house: &mut Probed, lasts: &[u64], [site, snapshot, key]: [u64; 3]) -> Option<End> {
    let (value, count) = found(house, [site, snapshot, key])?;
    let (base, _) = found(house, [site, 0, key])?;
    // Hardly ever do entries have each of the site's last keys.
    let last = lasts[site as usize - 1];
    let visible = (last.saturating_sub(3)..=last)
        .filter_map(|key| Some(found(house, [site, snapshot, key])?.1));
    let visible = visible.max()?;
    Some(match count {
        0 => End::NothingVisible,
        _ if value == base => End::NoHit,
        1 => End::Newest,
        _ if count < visible => End::Between,
        _ => End::Oldest,
    })
}

#[test]
fn random_searches_do_not_all_end_alike() {
    let mut ends: BTreeMap<End, u64> = BTreeMap::new();
    for seed in PROBES {
        let (mut house, text) = (Probed::of(1), random::probe(seed, 1_500));
        let lasts = lasts_of(&text);
        for line in text.lines() {
            if let Some(numbers) = line.strip_prefix("search ") {
                let numbers: Vec<u64> = numbers.split(' ').map(|it| it.parse().unwrap()).collect();
                if let Some(end) = end_of(&mut house, &lasts, numbers.try_into().unwrap()) {
                    *ends.entry(end).or_default() += 1;
                }
            }
            house.say(line);
        }
    }
    for end in [End::NothingVisible, End::NoHit, End::Newest, End::Between, End::Oldest] {
        assert!(ends.get(&end).is_some_and(|&count| count >= 10), "{end:?}: {ends:?}");
    }
}

/// The book notices a copy that lacks a write of the prefix.
#[test]
fn the_book_finds_a_wrong_copy() {
    let transaction = (1 << 32) + 1;
    let mut copies = vec![Copy::start(); COPIES];
    let mut book = Book::default();
    let begun = Call::Begin { site: 1, desk: HOUSE };
    let written = Call::Write { site: 1, transaction, key: 5, value: bare(6) };
    assert!(book.enter(&begun, &Ok(Answer::Begun(transaction)), &[], &copies).is_ok());
    assert!(book.enter(&written, &Ok(Answer::Done), &[], &copies).is_ok());
    copies[2].values[5] = bare(6);
    assert!(book.enter(&Call::Emit, &Ok(Answer::Done), &[], &copies).is_err());
}

/// A book in which T began at site 1 for a desk, and enlisted site 2 with these words.
fn with_part(desk: u64, join: &[u64]) -> Result<Book, String> {
    let copies = vec![Copy::start(); COPIES];
    let mut book = Book::default();
    let begin = Call::Begin { site: 1, desk };
    let enlist = Call::Enlist { site: 1, transaction: T, target: 2 };
    let sent = Answer::Sent(Sent { words: join.len(), decision: None });
    book.enter(&begin, &Ok(Answer::Begun(T)), &[], &copies)?;
    book.enter(&enlist, &Ok(sent), join, &copies)?;
    Ok(book)
}

#[test]
fn the_book_finds_a_desk_that_is_none_or_not_the_transactions() {
    for (desk, said) in [(HOUSE, PROOFING), (PROOFING, HOUSE), (PROOFING, 2), (2, 2)] {
        assert!(with_part(desk, &to_two(1, 1, 0, said)).is_err(), "{said} in place of {desk}");
    }
    let copies = vec![Copy::start(); COPIES];
    let joined = to_one(1, 2, 0);
    let answer = Ok(Answer::Sent(Sent { words: joined.len(), decision: None }));
    for (said, holds) in [(PROOFING, true), (HOUSE, false), (2, false)] {
        let mut book = with_part(PROOFING, &to_two(1, 1, 0, PROOFING)).unwrap();
        let join = to_two(1, 1, 0, said);
        let taken = Call::Message { site: 2, words: &join };
        assert_eq!(book.enter(&taken, &answer, &joined, &copies).is_ok(), holds, "{said}");
    }
}

#[test]
fn the_book_finds_a_key_too_many_and_an_11_too_early() {
    let copies = vec![Copy::start(); COPIES];
    for (desk, limit) in [(PROOFING, 4), (HOUSE, 16)] {
        let mut book = with_part(desk, &to_two(1, 1, 0, desk)).unwrap();
        let write = |key: u64| Call::Write { site: 1, transaction: T, key, value: bare(6) };
        for key in 0..limit {
            let early = book.enter(&write(key), &Err(Refusal::TooManyKeys), &[], &copies);
            assert!(early.is_err(), "{key}");
            assert!(book.enter(&write(key), &Ok(Answer::Done), &[], &copies).is_ok());
        }
        assert!(book.enter(&write(0), &Ok(Answer::Done), &[], &copies).is_ok(), "known");
        assert!(book.enter(&write(0), &Err(Refusal::TooManyKeys), &[], &copies).is_err());
        assert!(book.enter(&write(limit), &Err(Refusal::TooManyKeys), &[], &copies).is_ok());
        assert!(book.enter(&write(limit), &Ok(Answer::Done), &[], &copies).is_err());
    }
}

#[test]
fn the_book_finds_a_seventeenth_key_read_for_either_desk() {
    let copies = vec![Copy::start(); COPIES];
    for desk in [HOUSE, PROOFING] {
        let mut book = with_part(desk, &to_two(1, 1, 0, desk)).unwrap();
        let read = |key: u64| Call::Read { site: 1, transaction: T, key };
        let value = Ok(Answer::Value(FRESH));
        let own = Call::Write { site: 1, transaction: T, key: 99, value: FRESH };
        assert!(book.enter(&own, &Ok(Answer::Done), &[], &copies).is_ok());
        assert!(book.enter(&read(99), &value, &[], &copies).is_ok(), "enters no set");
        for key in 0..16 {
            assert!(book.enter(&read(key), &Err(Refusal::TooManyKeys), &[], &copies).is_err());
            assert!(book.enter(&read(key), &value, &[], &copies).is_ok(), "{key}");
        }
        assert!(book.enter(&read(16), &Err(Refusal::TooManyKeys), &[], &copies).is_ok());
        assert!(book.enter(&read(16), &value, &[], &copies).is_err());
    }
}
