//! Layouts of messages and records: one word off is refused 2.

mod common;

use common::{merger, message, refused, site};
use second::answer::Refusal;
use second::copy::Copy;
use second::message::Message;
use second::sizes::SEND_BUFFER;

const T: u64 = (1 << 32) + 1;
const U: u64 = (2 << 32) + 1;

/// A good message becomes impossible by any of these words.
fn breaks(good: &[u64], sites: u64, words: &[(usize, u64)]) {
    assert!(Message::parse(good, sites).is_ok(), "{good:?}");
    for &(place, word) in words {
        let mut bad = good.to_vec();
        bad[place] = word;
        let parsed = Message::parse(&bad, sites);
        assert_eq!(parsed.err(), Some(Refusal::Impossible), "word {place} = {word}");
    }
}

#[test]
fn headers() {
    let join = message(1, 1, 2, T);
    breaks(&join, 3, &[(0, 9), (0, 11), (1, 0), (1, 9), (1, 2), (2, 0), (2, 4), (2, 2), (3, 1)]);
    breaks(
        &join,
        3,
        &[(3, 0), (3, 4), (5, U), (5, 1 << 32), (5, 1), (5, u64::MAX), (6, 1), (7, 2)],
    );
    breaks(&join, 3, &[(8, 1), (8, u64::MAX), (9, 10)]);
    for length in 0..10 {
        assert!(Message::parse(&join[..length], 3).is_err());
    }
    refused(&site(3, 2), SEND_BUFFER, 2, |site, out| site.message(&[], out));
}

#[test]
fn arguments_and_clocks() {
    breaks(&message(2, 2, 1, T), 3, &[(7, 1), (7, 5), (7, 13), (6, 1), (5, U)]);
    let mut prepare = message(3, 1, 2, T);
    (prepare[6], prepare[7]) = (77, 3);
    breaks(&prepare, 3, &[(7, 0), (7, 1), (7, 2), (7, 5), (7, 11), (7, u64::MAX)]);
    let mut vote = message(6, 2, 1, T);
    (vote[6], vote[7]) = (77, 19);
    breaks(&vote, 3, &[(7, 12), (7, 13), (7, 20), (7, 1), (2, 1), (5, U)]);
    let mut commit = message(7, 1, 2, T);
    commit[6] = u64::MAX;
    breaks(&commit, 3, &[(7, 1), (2, 3), (2, 2)]);
    breaks(&message(8, 1, 2, T), 3, &[(6, 1), (7, 20)]);
    breaks(&message(4, 2, 1, T), 3, &[(6, 1), (7, 1)]);
    breaks(&message(5, 1, 2, T), 3, &[(6, 1), (7, 1)]);
}

fn with_entries(kind: u64, count: u64) -> Vec<u64> {
    let (from, to) = if kind == 4 { (2, 1) } else { (1, 2) };
    let mut words = message(kind, from, to, T);
    (words[0], words[8], words[9]) = (10 + 3 * count, count, 10);
    for entry in 0..count {
        words.extend([T + entry, 3, entry % 2]);
    }
    words
}

#[test]
fn entries() {
    let conc = with_entries(4, 2);
    breaks(
        &conc,
        3,
        &[(8, 1), (8, 3), (9, 0), (9, 11), (10, T + 1), (10, T + 2), (13, T), (13, 0)],
    );
    breaks(
        &conc,
        3,
        &[(10, 0), (13, (4 << 32) + 1), (13, 2 << 32), (11, 8), (12, 2), (15, u64::MAX)],
    );
    assert!(Message::parse(&with_entries(4, 47), 2).is_ok());
    assert!(Message::parse(&with_entries(4, 48), 2).is_err());
    assert!(Message::parse(&with_entries(5, 376), 2).is_ok());
    assert!(Message::parse(&with_entries(5, 377), 2).is_err());
    for kind in [1, 2, 3, 6, 7, 8] {
        let mut words = with_entries(5, 1);
        words[1] = kind;
        assert!(Message::parse(&words, 2).is_err(), "kind {kind} has no entries");
    }
}

#[test]
fn part_records() {
    let part = [15, 1, 2, 5, 1, T, 3, 2, 9, 256, 1, 7, 300, 2, 0];
    assert_eq!(merger(2).merge(&part), Ok(()));
    let part_words = [
        (0, 14),
        (0, 13),
        (1, 0),
        (1, 3),
        (1, 4),
        (2, 0),
        (2, 1),
        (2, 3),
        (4, 2),
        (4, 0),
        (5, U),
        (5, 1 << 32),
        (6, 1),
        (6, 7),
        (7, 1),
        (7, 3),
        (7, u64::MAX),
        (8, 0),
        (8, 10),
        (9, 300),
        (9, 301),
        (9, 255),
        (12, 256),
        (12, 2_048),
    ];
    for (place, word) in part_words {
        let mut bad = part;
        bad[place] = word;
        let mut merger = merger(2);
        assert_eq!(merger.merge(&bad), Err(Refusal::Impossible), "word {place} = {word}");
    }
    assert!(merger(2).merge(&[]).is_err());
    assert!(merger(2).merge(&[9, 1, 1, 5, 1, T, 1, 0, 9]).is_err());
}

#[test]
fn state_records() {
    let state = [9, 2, 1, 5, 0, 0, 0, 0, 0];
    assert_eq!(merger(2).merge(&state), Ok(()));
    for place in 4..9 {
        let mut bad = state;
        bad[place] = 1;
        assert_eq!(merger(2).merge(&bad), Err(Refusal::Impossible));
    }
}

#[test]
fn merged_records() {
    let merged = [15, 3, 0, 5, 1, T, 3, 2, 9, 255, 1, 7, 2_047, 2, 0];
    assert!(Copy::start().replay(&merged).is_ok());
    let words = [
        (0, 16),
        (0, 13),
        (1, 1),
        (1, 2),
        (2, 1),
        (4, 2),
        (4, 9),
        (5, U),
        (5, 1 << 32),
        (6, 256),
        (7, 1),
        (7, 129),
        (8, 0),
        (9, 2_047),
        (12, 2_048),
        (12, 255),
    ];
    for (place, word) in words {
        let mut bad = merged;
        bad[place] = word;
        assert_eq!(Copy::start().replay(&bad), Err(Refusal::Impossible), "word {place} = {word}");
    }
    let writes = |count: u64| {
        let mut words = vec![9 + 3 * count, 3, 0, 5, 1, T, 3, count, 9];
        (0..count).for_each(|key| words.extend([key, 1, 5]));
        words
    };
    assert!(Copy::start().replay(&writes(128)).is_ok());
    assert!(Copy::start().replay(&writes(129)).is_err());
}
