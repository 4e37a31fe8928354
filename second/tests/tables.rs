//! Tables of first keys: where each key lives, what a start refuses, houses with ranges
//! of unequal length, and `sites` lines (Q3.1 to Q3.9).

mod common;

use common::*;
use second::answer::{Pair, Refusal};
use second::book::Book;
use second::copy::Copy;
use second::merger::Merger;
use second::site::Site;
use second::sizes::*;
use second::table::{even, is_good, Table};
use second::value::Value;
use second::world::{Answer, Call, World};

const T: u64 = (1 << 32) + 1;

/// Good first keys, the one of each house 0, 256 and so on apart.
const UNEVEN: [&[u64]; 9] = [
    &[0],
    &[0, 1],
    &[0, 2_047],
    &[0, 1_000],
    &[0, 100, 900],
    &[0, 100, 101],
    &[0, 1, 2, 3, 4, 5, 6, 7],
    &[0, 2_041, 2_042, 2_043, 2_044, 2_045, 2_046, 2_047],
    &[0, 255, 257, 512, 1_024, 1_025, 2_046, 2_047],
];

/// Bad first keys: a start that is not 0, equal keys, another order, one above 2,047.
const BAD: [&[u64]; 16] = [
    &[1],
    &[2_047],
    &[2_048],
    &[u64::MAX],
    &[1, 256],
    &[256, 512, 768],
    &[0, 0],
    &[0, 100, 100],
    &[0, 0, 100],
    &[100, 0],
    &[0, 200, 100],
    &[0, 2_048],
    &[0, 100, 2_048],
    &[0, 100, u64::MAX],
    &[0, 256, 512, 768, 1_024, 1_280, 1_536, 1_536],
    &[0, 256, 512, 768, 1_024, 1_280, 1_536, 2_048],
];

fn table(firsts: &[u64]) -> Table {
    Table::start(firsts.len() as u64, firsts).unwrap()
}

fn number<T>(result: Result<T, Refusal>) -> u64 {
    result.err().map_or(0, Refusal::number)
}

/// Numbers of the three starts: of a site, of the merger, of a house.
fn starts(sites: u64, firsts: &[u64], own: u64) -> [u64; 3] {
    [
        number(Site::start(sites, firsts, own)),
        number(Merger::start(sites, firsts)),
        number(World::start(sites, firsts)),
    ]
}

#[test]
fn every_key_lives_at_exactly_one_site() {
    for firsts in UNEVEN {
        let (table, sites) = (table(firsts), firsts.len() as u64);
        for key in 0..KEYS {
            let homes: Vec<u64> =
                (1..=sites).filter(|&site| table.keys(site).contains(&key)).collect();
            // The last first key at or below the key.
            let due = firsts.iter().rposition(|&first| first <= key).unwrap() as u64 + 1;
            assert_eq!(homes, [due], "key {key} of {firsts:?}");
            assert_eq!(table.site_of(key), Some(due), "key {key} of {firsts:?}");
        }
        for key in [KEYS, KEYS + 1, u64::MAX] {
            assert_eq!(table.site_of(key), None, "key {key} of {firsts:?}");
        }
        assert_eq!(table.keys(sites).end, 2_048, "{firsts:?}");
    }
}

#[test]
fn the_default_is_the_rule_of_256_capped_at_the_last_site() {
    for sites in 1..=8 {
        let table = table(&even(sites));
        for key in 0..KEYS {
            assert_eq!(table.site_of(key), Some((key / 256 + 1).min(sites)), "{key} of {sites}");
        }
    }
}

#[test]
fn the_last_site_of_a_smaller_house_lacks_no_key() {
    for sites in [1, 2, 7] {
        let mut last = site(sites, sites);
        let transaction = last.begin(HOUSE).unwrap();
        let first = (sites - 1) * 256;
        for key in [first, first + 255, first + 256, 1_792, 2_046, 2_047] {
            assert_eq!(last.write(transaction, key, bare(key + 1)), Ok(()), "{key} of {sites}");
            assert_eq!(last.read(transaction, key), Ok(bare(key + 1)));
        }
        refused(&last, 0, 2, |site, _| site.write(transaction, 2_048, bare(1)));
        for own in 1..sites {
            let one = site(sites, own);
            refused(&one, 0, 3, |site, _| site.read(T, 2_047));
            refused(&one, 0, 2, |site, _| site.read(T, 2_048));
        }
    }
}

#[test]
fn a_bad_table_gives_22() {
    for firsts in BAD {
        assert!(!is_good(firsts), "{firsts:?}");
        let sites = firsts.len() as u64;
        for own in 1..=sites {
            assert_eq!(starts(sites, firsts, own), [22; 3], "{firsts:?} at {own}");
        }
    }
    for firsts in UNEVEN {
        assert_eq!(starts(firsts.len() as u64, firsts, 1), [0; 3], "{firsts:?}");
    }
}

#[test]
fn what_gives_2_goes_before_a_bad_table() {
    for firsts in BAD.into_iter().chain(UNEVEN) {
        let count = firsts.len() as u64;
        for own in [0, count + 1, 9, u64::MAX] {
            assert_eq!(number(Site::start(count, firsts, own)), 2, "{firsts:?} at {own}");
        }
        for sites in (0..=9).chain([u64::MAX]).filter(|&sites| sites != count) {
            assert_eq!(starts(sites, firsts, 1), [2; 3], "{firsts:?} of {sites}");
        }
    }
    let nine: Vec<u64> = (0..9).collect();
    assert_eq!(starts(9, &nine, 1), [2; 3]);
    assert_eq!(starts(1, &[], 1), [2; 3]);
    assert_eq!(starts(0, &[], 1), [2; 3]);
}

#[test]
fn a_site_of_one_key_takes_no_other() {
    let firsts = [0, 100, 101];
    let mut two = Site::start(3, &firsts, 2).unwrap();
    let transaction = two.begin(HOUSE).unwrap();
    for (key, due) in [(99, 3), (101, 3), (0, 3), (2_047, 3), (2_048, 2)] {
        refused(&two, 0, due, |site, _| site.write(transaction, key, bare(1)));
        refused(&two, 0, due, |site, _| site.read(transaction, key));
        refused(&two, 0, due, |site, _| site.search(0, key));
    }
    for round in 0..40 {
        let transaction = two.begin(PROOFING).unwrap();
        assert_eq!(two.read(transaction, 100), Ok(bare(round)));
        two.write(transaction, 100, bare(round + 1)).unwrap();
        two.commit(transaction, &mut buffer()).unwrap();
        two.install(&mut buffer()).unwrap();
    }
    let sum: u64 = two.base.iter().map(|value| value.start + value.length).sum();
    assert_eq!((two.base[100], sum), (bare(8), 8), "forgotten into its key");
}

#[test]
fn a_part_with_a_key_of_another_range_gives_2() {
    let part = |site: u64, key: u64| [12, 1, site, 5, 1, T, 7, 1, 9, key, 8, 2];
    let cases = [
        (1, [0, 99], [100, 101, 2_047, 2_048]),
        (2, [100, 100], [99, 101, 0, u64::MAX]),
        (3, [101, 2_047], [100, 99, 0, 2_048]),
    ];
    for (site, own, foreign) in cases {
        for key in own {
            let mut merger = Merger::start(3, &[0, 100, 101]).unwrap();
            assert_eq!(merger.merge(&part(site, key)), Ok(()), "{key} at {site}");
        }
        for key in foreign {
            let mut merger = Merger::start(3, &[0, 100, 101]).unwrap();
            let before = merger.clone();
            assert_eq!(number(merger.merge(&part(site, key))), 2, "{key} at {site}");
            assert_eq!(merger, before);
        }
    }
}

#[test]
fn a_copy_places_no_key() {
    let merged = [18, 3, 0, 5, 1, T, 7, 3, 9, 0, 1, 0, 100, 2, 8, 2_047, 3, 0];
    let mut copy = Copy::start();
    assert_eq!(copy.replay(&merged), Ok(Pair::new(5, 1)));
    assert_eq!(copy.value(100), Ok((Value::new(2, 8), Pair::new(5, 1))));
}

/// A save over three sites with ranges of 100 keys, one key and the rest.
#[test]
fn an_uneven_house_from_begin_to_value() {
    play(
        "sites 3 0 100 101
         begin 2 => ok 8589934593
         enlist 8589934593 1
         enlist 8589934593 3
         take 2 1
         take 2 3
         take 1 2
         take 3 2
         write 1 8589934593 0 10 0
         write 1 8589934593 99 11 0
         write 1 8589934593 100 12 0 => refused 3
         write 2 8589934593 99 12 0 => refused 3
         write 2 8589934593 100 12 0
         write 2 8589934593 101 12 0 => refused 3
         write 3 8589934593 100 13 0 => refused 3
         write 3 8589934593 101 13 0
         write 3 8589934593 2047 14 0
         write 3 8589934593 2048 14 0 => refused 2
         read 3 8589934593 2047 => ok 14 0
         read 3 8589934593 256 => ok 0 0
         read 1 8589934593 256 => refused 3
         commit 8589934593
         take 2 1
         take 2 3
         take 1 2
         take 3 2
         take 2 1
         take 2 3
         take 1 2
         take 3 2 => ok 1
         take 2 1
         take 2 3
         install 1 => ok 1 2
         install 2 => ok 1 2
         install 3 => ok 1 2
         merge 1
         merge 2
         merge 3
         emit => ok 1 2 8589934593
         replay 1 => ok 1 2
         value 1 0 => ok 10 0 1 2
         value 1 99 => ok 11 0 1 2
         value 1 100 => ok 12 0 1 2
         value 1 101 => ok 13 0 1 2
         value 1 2047 => ok 14 0 1 2
         value 1 2048 => refused 2
         value 1 256 => ok 0 0 1 2",
    );
}

#[test]
fn a_sites_line_gives_first_keys_or_none() {
    let lines = [
        "sites 0 => refused 2",
        "sites 1 1 => refused 22",
        "sites 2 0 0 => refused 22",
        "sites 2 0 2048 => refused 22",
        "sites 3 0 9 8 => refused 22",
        "sites 3 9 0 8 => refused 22",
        "sites 3 0 100 => refused 2",
        "sites 3 5 5 => refused 2",
        "sites 3 0 100 200 300 => refused 2",
        "sites 9 0 1 2 3 4 5 6 7 => refused 2",
        "sites 0 0 => refused 2",
        "sites 2 1 1 1 => refused 2",
        "sites 8 0 1 2 3 4 5 6 7 8 => refused 2",
        "sites 2 0 x => refused 2",
        "sites 2 0  7 => refused 2",
        "sites 2 0 18446744073709551616 => refused 2",
        "sites 2 0 18446744073709551615 => refused 22",
        "begin 1 => refused 2",
        "sites 8 0 1 2 3 4 5 6 7 => ok",
        "sites 8 0 1 2 3 4 5 6 7 => refused 2",
        "sites 2 0 0 => refused 2",
        "sites 2 => refused 2",
        "begin 8 => ok 34359738369",
        "write 8 34359738369 7 1 0 => ok",
        "write 8 34359738369 6 1 0 => refused 3",
    ];
    play(&lines.join("\n"));
}

#[test]
fn a_sites_line_without_keys_is_one_with_the_default() {
    let keys = |line: &str| {
        let calls = ["begin 2", "read 2 8589934593 255", "read 2 8589934593 256"];
        let more = ["read 2 8589934593 511", "read 2 8589934593 512", "read 2 8589934593 2047"];
        outputs(&[&[line], &calls[..], &more[..]].concat().join("\n"))
    };
    assert_eq!(keys("sites 3"), keys("sites 3 0 256 512"));
    assert_eq!(keys("sites 2"), keys("sites 2 0 256"));
    assert_ne!(keys("sites 3"), keys("sites 2"));
}

#[test]
fn the_book_finds_a_key_at_another_site() {
    let copies = vec![Copy::start(); COPIES];
    let world = World::start(3, &[0, 100, 101]).unwrap();
    let entered = |site: u64, key: u64, answer: Result<Answer, Refusal>| {
        let mut book = Book::of(&world);
        let (begin, begun) = (Call::Begin { site, desk: HOUSE }, Ok(Answer::Begun(T)));
        book.enter(&begin, &begun, &[], &copies).unwrap();
        let write = Call::Write { site, transaction: T, key, value: bare(1) };
        book.enter(&write, &answer, &[], &copies).is_ok()
    };
    for (site, key) in [(1, 99), (2, 100), (3, 101), (3, 2_047)] {
        assert!(entered(site, key, Ok(Answer::Done)), "{key} at {site}");
        assert!(!entered(site, key, Err(Refusal::OtherSite)), "{key} at {site}");
        assert!(!entered(site, key, Err(Refusal::Impossible)), "{key} at {site}");
    }
    for (site, key) in [(1, 100), (2, 99), (2, 101), (3, 100), (1, 2_047)] {
        assert!(!entered(site, key, Ok(Answer::Done)), "{key} at {site}");
        assert!(entered(site, key, Err(Refusal::OtherSite)), "{key} at {site}");
        assert!(!entered(site, key, Err(Refusal::Impossible)), "{key} at {site}");
    }
    assert!(entered(3, 2_048, Err(Refusal::Impossible)));
    assert!(!entered(3, 2_048, Err(Refusal::OtherSite)));
}
