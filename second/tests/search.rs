//! The search of a history: its value, how many entries it looked at, its refusals,
//! and that it alters nothing (Q5.1 to Q5.5).

mod common;

use common::probed::House;
use common::stages::*;
use common::*;
use second::random::Random;
use second::site::{Found, Site};
use second::sizes::*;
use second::value::{Value, FRESH};

const LENGTHS: [u64; 6] = [0, 1, 31, 32, 33, 70];
const SEEDS: u64 = 6;
/// Keys of site 2: the first twelve are written, the others never.
const WRITTEN: std::ops::Range<u64> = 256..268;
const NEVER: [u64; 3] = [268, 300, 511];

/// What each install of a site wrote, the first install first.
type Log = Vec<Vec<(u64, Value)>>;

/// Site 2 of three after so many lone saves, and what they wrote.
fn grown(seed: u64, installs: u64) -> (Site, Log) {
    let mut random = Random::new(seed * 1_000 + installs);
    let (mut two, mut log) = (site(3, 2), Log::new());
    for _ in 0..installs {
        save(&mut two, &mut log, &mut random);
    }
    (two, log)
}

/// A lone save that reads one key and writes none to three.
fn save(site: &mut Site, log: &mut Log, random: &mut Random) {
    let transaction = site.begin(HOUSE).unwrap();
    site.read(transaction, random.between(WRITTEN.start, WRITTEN.end)).unwrap();
    let mut writes = Vec::new();
    for _ in 0..random.below(4) {
        let key = random.between(WRITTEN.start, WRITTEN.end - 1);
        let value = Value::new(random.word() / 2, random.word() / 2);
        site.write(transaction, key, value).unwrap();
        writes.retain(|write: &(u64, Value)| write.0 != key);
        writes.push((key, value));
    }
    site.commit(transaction, &mut buffer()).unwrap();
    site.install(&mut buffer()).unwrap();
    log.push(writes);
}

/// What the log says to a search, without a walk: the visible installs are those from
/// `forgotten` + 1 to `newest`.
fn due(log: &Log, snapshot: u64, key: u64) -> Found {
    let installs = log.len() as u64;
    let forgotten = installs.saturating_sub(32);
    let newest = snapshot.min(installs);
    let wrote =
        |install: u64| log[install as usize - 1].iter().find(|it| it.0 == key).map(|it| it.1);
    let last_writer = |from: u64, to: u64| (from..=to).filter(|&it| wrote(it).is_some()).max();
    let (hit, left) = (last_writer(forgotten + 1, newest), last_writer(1, forgotten));
    let looked_at = match hit {
        Some(hit) => newest - hit + 1,
        None => newest.saturating_sub(forgotten),
    };
    Found { value: hit.or(left).and_then(wrote).unwrap_or(FRESH), looked_at }
}

/// Each snapshot up to two beyond the installs, and some far beyond.
fn snapshots(installs: u64) -> impl Iterator<Item = u64> {
    (0..=installs + 2).chain([installs + 32, installs + 33, 1 << 32, u64::MAX - 1, u64::MAX])
}

/// Each history with each snapshot and key: what the search found, and what is due.
fn each_search(mut check: impl FnMut(Found, Found, String)) {
    for installs in LENGTHS {
        for seed in 1..=SEEDS {
            let (site, log) = grown(seed, installs);
            for snapshot in snapshots(installs) {
                for key in WRITTEN.chain(NEVER) {
                    let found = site.search(snapshot, key).unwrap();
                    let place = format!("{installs} installs, seed {seed}, {snapshot}, key {key}");
                    check(found, due(&log, snapshot, key), place);
                }
            }
        }
    }
}

#[test]
fn no_entry_is_looked_at_behind_the_hit_or_beyond_the_snapshot() {
    each_search(|found, due, place| assert_eq!(found.looked_at, due.looked_at, "{place}"));
}

#[test]
fn no_version_but_the_newest_within_the_snapshot_is_found() {
    each_search(|found, due, place| assert_eq!(found.value, due.value, "{place}"));
}

/// Site 1 of one with planted entries; the last is install `installs`.
fn planted(installs: u64, entries: &[&[(u64, u64)]]) -> Site {
    let mut one = site(1, 1);
    one.installs = installs;
    let first = installs - entries.len() as u64 + 1;
    for (install, writes) in (first..=installs).zip(entries) {
        one.history.push_back(installed(install, T + install % 100, writes));
    }
    one
}

fn answer(site: &Site, snapshot: u64, key: u64) -> (u64, u64) {
    let found = site.search(snapshot, key).unwrap();
    assert_eq!(found.value.length, 0);
    (found.value.start, found.looked_at)
}

#[test]
fn an_entry_that_lacks_the_key_counts_and_so_does_the_hit() {
    let mut one = planted(4, &[&[(6, 60)], &[(5, 70)], &[], &[(5, 80)]]);
    one.base[7] = bare(7);
    let answers = |key: u64| [0, 1, 2, 3, 4, 5].map(|snapshot| answer(&one, snapshot, key));
    assert_eq!(answers(5), [(0, 0), (0, 1), (70, 1), (70, 2), (80, 1), (80, 1)]);
    assert_eq!(answers(6), [(0, 0), (60, 1), (60, 2), (60, 3), (60, 4), (60, 4)]);
    assert_eq!(answers(7), [(7, 0), (7, 1), (7, 2), (7, 3), (7, 4), (7, 4)]);
}

#[test]
fn a_version_of_0_is_not_passed_over() {
    let mut one = planted(3, &[&[(5, 50)], &[(5, 0)], &[]]);
    one.base[5] = bare(9);
    assert_eq!([1, 2, 3].map(|snapshot| answer(&one, snapshot, 5)), [(50, 1), (0, 1), (0, 2)]);
}

#[test]
fn installs_at_the_end_of_their_count_are_searched_too() {
    let mut entries: Vec<&[(u64, u64)]> = vec![&[]; HISTORY];
    (entries[0], entries[30]) = (&[(5, 50), (6, 60)], &[(5, 51)]);
    let one = planted(u64::MAX, &entries);
    let answers = |key: u64| [0, 1, 2, 31, 32, 33].map(|back| answer(&one, u64::MAX - back, key));
    assert_eq!(answers(5), [(51, 2), (51, 1), (50, 30), (50, 1), (0, 0), (0, 0)]);
    assert_eq!(answers(6), [(60, 32), (60, 31), (60, 30), (60, 1), (0, 0), (0, 0)]);
    assert_eq!(answers(7), [(0, 32), (0, 31), (0, 30), (0, 1), (0, 0), (0, 0)]);
    assert_eq!(answer(&one, 0, 5), (0, 0));
}

#[test]
fn another_sites_key_is_never_answered_and_2_goes_before_3() {
    let keys = [0, 255, 256, 511, 512, 767, 768, 2_047, 2_048, u64::MAX];
    let numbers = |sites: u64, own: u64| {
        let one = site(sites, own);
        keys.map(|key| match one.search(33, key) {
            Ok(_) => 0,
            Err(refusal) => {
                refused(&one, 0, refusal.number(), |site, _| site.search(33, key));
                refusal.number()
            }
        })
    };
    assert_eq!(numbers(1, 1), [0, 0, 0, 0, 0, 0, 0, 0, 2, 2]);
    assert_eq!(numbers(2, 1), [0, 0, 3, 3, 3, 3, 3, 3, 2, 2]);
    assert_eq!(numbers(3, 2), [3, 3, 0, 0, 3, 3, 3, 3, 2, 2]);
    assert_eq!(numbers(8, 8), [3, 3, 3, 3, 3, 3, 3, 0, 2, 2]);
}

#[test]
fn no_search_is_refused_for_a_snapshot_a_part_or_a_stage() {
    // Installs after the snapshot are forgotten: a read is refused 8.
    let (mut two, log) = grown(2, 33);
    let late = two.begin(HOUSE).unwrap();
    two.live[0].snapshot = 0;
    refused(&two, 0, 8, |site, _| site.read(late, 260));
    assert_eq!(two.search(0, 260), Ok(due(&log, 0, 260)));
    // Sixteen keys were read: the seventeenth is refused 11.
    two.live[0].snapshot = 33;
    for key in 400..416 {
        two.read(late, key).unwrap();
    }
    refused(&two, 0, 11, |site, _| site.read(late, 260));
    assert_eq!(two.search(33, 260), Ok(due(&log, 33, 260)));
    for site in participants() {
        let looked_at = site.installs.min(HISTORY as u64);
        assert_eq!(site.search(u64::MAX, 256), Ok(Found { value: FRESH, looked_at }));
    }
    for site in coordinators() {
        assert_eq!(site.search(7, 0), Ok(Found { value: FRESH, looked_at: 0 }));
    }
}

#[test]
fn a_read_finds_what_the_search_of_its_snapshot_finds() {
    for seed in 1..=SEEDS {
        let mut random = Random::new(seed);
        let (mut two, mut log, mut readers) = (site(3, 2), Log::new(), Vec::new());
        for installs in 0..=70 {
            if [38, 39, 45, 53, 62, 69, 70].contains(&installs) {
                readers.push((two.begin(HOUSE).unwrap(), installs));
            }
            if installs < 70 {
                save(&mut two, &mut log, &mut random);
            }
        }
        for (reader, snapshot) in readers {
            for key in WRITTEN.chain(NEVER) {
                let found = two.search(snapshot, key).unwrap();
                assert_eq!(two.read(reader, key), Ok(found.value), "seed {seed}, key {key}");
            }
        }
    }
}

#[test]
fn an_own_write_is_read_and_not_searched() {
    let mut one = planted(2, &[&[(5, 50)], &[(6, 60)]]);
    let writer = one.begin(HOUSE).unwrap();
    one.write(writer, 5, bare(51)).unwrap();
    assert_eq!(one.read(writer, 5), Ok(bare(51)));
    assert_eq!(answer(&one, 2, 5), (50, 2));
    one.commit(writer, &mut buffer()).unwrap();
    assert_eq!(answer(&one, 3, 5), (50, 2), "decided, not installed");
    one.install(&mut buffer()).unwrap();
    assert_eq!((answer(&one, 3, 5), answer(&one, 2, 5)), ((51, 1), (50, 2)));
}

/// Lines of a house of two: one save at site 1, which writes 30 and 12 at key 3.
fn one_save() -> House {
    let (write, commit) = (format!("write 1 {T} 3 30 12"), format!("commit 1 {T}"));
    House::after(2, &["begin 1", &write, &commit, "install 1"])
}

fn says<const N: usize>(house: &mut House, lines: [&str; N]) -> [String; N] {
    lines.map(|line| house.say(line).to_string())
}

/// A hit, no hit, a key of another site, a key above 2,047.
const SEARCHES: [&str; 4] = ["search 1 1 3", "search 1 1 4", "search 1 1 300", "search 1 1 2048"];
const ANSWERS: [&str; 4] = ["ok 30 12 1", "ok 0 0 1", "refused 3", "refused 2"];

#[test]
fn a_search_alters_no_state_and_writes_no_word() {
    let mut house = one_save();
    house.say("report 1");
    let state = house.left.rsplit(' ').next().unwrap().to_string();
    for (line, answer) in SEARCHES.into_iter().zip(ANSWERS) {
        assert_eq!(house.say(line), answer);
        let state = if answer.starts_with("ok") { state.as_str() } else { "0" };
        assert_eq!(house.left, format!("0 0 1 {state}"), "{line}");
    }
    assert_eq!(house.say("search 3 1 3"), "refused 2");
    assert_eq!(house.left, "0 0 1 0");
    house.say("report 1");
    assert!(house.left.ends_with(&state));
}

#[test]
fn no_table_of_another_length_is_searched() {
    let mut house = one_save();
    for (verb, length) in [("places", 1_168), ("slots", 2_208), ("base", 4_096)] {
        for lent in [0, length - 1, length + 1, length - 16] {
            house.say(&format!("{verb} {lent}"));
            assert_eq!(says(&mut house, SEARCHES), ["refused 2"; 4], "{verb} {lent}");
            assert_eq!(house.left, "0 0 1 0");
        }
        house.say(&format!("{verb} {length}"));
        assert_eq!(says(&mut house, SEARCHES), ANSWERS, "{verb}");
    }
    // A search is lent neither lists nor an outgoing buffer.
    for line in ["lists 0", "room 0"] {
        house.say(line);
        assert_eq!(says(&mut house, SEARCHES), ANSWERS, "{line}");
    }
}

#[test]
fn no_impossible_state_is_searched() {
    let mut house = one_save();
    house.say("begin 1");
    let part = T + 1;
    let pokes = [
        ("site 1 0".to_string(), 9, 2),
        ("site 1 1".to_string(), 0, 1),
        ("site 1 3".to_string(), 1u64 << 32, 2),
        (format!("live 1 {part} 2"), 6, 1),
        (format!("live 1 {part} 3"), 4, 1),
        (format!("live 1 {part} 8"), 17, 0),
        (format!("live 1 {part} 10"), 2, 1),
        ("past 1 1 0".to_string(), 7, T),
        ("past 1 1 3".to_string(), 4, 1),
        ("past 1 1 200".to_string(), 300, 3),
        ("past 1 9 9".to_string(), 17, 0),
    ];
    for (poke, past, possible) in pokes {
        house.say(&format!("{poke} {past}"));
        assert_eq!(says(&mut house, SEARCHES), ["refused 2"; 4], "{poke} {past}");
        house.say(&format!("{poke} {possible}"));
        assert_eq!(says(&mut house, SEARCHES), ANSWERS, "{poke} {possible}");
    }
    // The number of an unused slot and an impossible list are not looked at.
    for poke in ["past 1 2 0 7".to_string(), format!("live 1 {part} 7 1")] {
        house.say(&poke);
        assert_eq!(says(&mut house, SEARCHES), ANSWERS, "{poke}");
    }
}
