//! Values in random lists, scripts and probes, and what the book says of them (Q12.5,
//! Q12.9).

mod common;

use std::collections::BTreeSet;

use common::probed::House as Probed;
use common::stages::T;
use common::*;
use second::answer::{Decision, Pair, Refusal, Sent};
use second::book::Book;
use second::copy::Copy;
use second::fuzz;
use second::probe::random;
use second::scripts::generate;
use second::site::{Found, InstallDone};
use second::sizes::*;
use second::tally::Tally;
use second::value::{Value, FRESH};
use second::world::{Answer, Call};

const LONG: Value = Value::new(u64::MAX, 1);

/// About half of the writes have a length; 29 falls for own keys too, and the causes
/// before it fall for values that do not fit.
fn assert_all_lengths(tally: &Tally, causes: &[u64]) {
    let (bare, some) = (tally.get("length 0", "ok"), tally.get("some length", "ok"));
    assert!(bare > 100 && some > 100 && bare < 2 * some && some < 2 * bare, "{bare} {some}");
    assert!(tally.get("to the end", "ok") > 10);
    assert_eq!(tally.get("too long", "ok"), 0);
    for number in causes {
        let outcome = format!("refused {number:2}");
        assert!(tally.get("too long", &outcome) > 0, "{number} with a value that does not fit");
    }
    assert!(tally.get("own too long", "refused 29") > 0);
    for length in ["length 0", "some length", "to the end"] {
        assert_eq!(tally.get(length, "refused 29"), 0, "29 for {length}");
    }
}

#[test]
fn scripts_write_lengths_up_to_the_end_and_beyond() {
    let mut tally = Tally::default();
    for seed in 1..=120 {
        tally.add(&generate(seed, None).tally);
    }
    assert_all_lengths(&tally, &[2, 3, 5, 27, 9, 10, 11, 29]);
    assert_eq!(tally.get("line write", "refused 29"), tally.get("any line", "refused 29"));
}

#[test]
fn random_lists_write_lengths_up_to_the_end_and_beyond() {
    let mut tally = Tally::default();
    for seed in 1..=80 {
        tally.add(&fuzz::run(seed, 600, false));
    }
    assert_all_lengths(&tally, &[2, 3, 5, 27, 9, 10, 11, 29]);
    assert_eq!(tally.total("refused 29"), calls_refused(&tally), "another call gave 29");
}

/// Each 29 of a write counts once for the call and once for its length; for own keys
/// once more.
fn calls_refused(tally: &Tally) -> u64 {
    2 * tally.get("write", "refused 29") + tally.get("own too long", "refused 29")
}

/// Verbs, with what a random probe sets by them, and the outcomes of writes.
fn met_by_probes() -> BTreeSet<(String, String)> {
    let mut met = BTreeSet::new();
    for seed in 1..=30 {
        let mut house = Probed::of(1);
        for line in random::probe(seed, 1_500).lines() {
            let outcome = house.say(line).to_string();
            let words: Vec<&str> = line.split(' ').collect();
            let what = match words.as_slice() {
                ["write", _, _, _, _, "0"] => format!("0 {outcome}"),
                ["write", ..] => format!("some {outcome}"),
                ["live" | "past", _, _, field, _] if field.len() == 3 => field[..1].to_string(),
                ["queued" | "copied", ..] => outcome,
                _ => continue,
            };
            met.insert((words[0].to_string(), what));
        }
    }
    met
}

#[test]
fn random_probes_set_values_wherever_one_stands() {
    let met = met_by_probes();
    let has = |verb: &str, what: &str| met.contains(&(verb.to_string(), what.to_string()));
    for what in ["0 ok", "some ok", "some refused 29", "some refused 9", "some refused 11"] {
        assert!(has("write", what), "{what}");
    }
    assert!(!has("write", "0 refused 29"));
    for verb in ["live", "past"] {
        assert!(has(verb, "3") && has(verb, "4"), "{verb}");
    }
    assert!(has("queued", "ok") && has("copied", "ok"));
}

/// A book in which T began at site 1 and wrote 30 and 12 at key 3; and a second
/// transaction that wrote 40 at key 4.
fn book() -> Book {
    let mut book = Book::default();
    for (transaction, key, value) in [(T, 3, Value::new(30, 12)), (T + 1, 4, bare(40))] {
        let begin = Call::Begin { site: 1, desk: HOUSE };
        assert!(enters(&mut book, begin, Ok(Answer::Begun(transaction))));
        assert!(enters(&mut book, write(transaction, key, value), Ok(Answer::Done)));
    }
    book
}

fn write(transaction: u64, key: u64, value: Value) -> Call<'static> {
    Call::Write { site: 1, transaction, key, value }
}

/// Whether the book takes the answer; its copies stay fresh.
fn enters(book: &mut Book, call: Call, answer: Result<Answer, Refusal>) -> bool {
    book.enter(&call, &answer, &[], &vec![Copy::start(); COPIES]).is_ok()
}

fn takes(book: &Book, call: Call, answer: Result<Answer, Refusal>) -> bool {
    enters(&mut book.clone(), call, answer)
}

#[test]
fn the_book_finds_a_29_where_none_is_due_and_one_that_is_left_out() {
    let (book, long) = (book(), Err(Refusal::DoesNotFit));
    for key in [3, 5] {
        assert!(takes(&book, write(T, key, LONG), long), "{key}");
        assert!(!takes(&book, write(T, key, LONG), Ok(Answer::Done)), "{key}");
        assert!(!takes(&book, write(T, key, LONG), Err(Refusal::TooManyKeys)), "{key}");
        assert!(!takes(&book, write(T, key, LONG), Err(Refusal::Forgotten)), "{key}");
        assert!(!takes(&book, write(T, key, Value::new(u64::MAX, 0)), long), "{key}");
    }
    // The other one holds key 4; 256 is of another site; nobody has these numbers.
    for (call, due) in [
        (write(T, 4, LONG), Refusal::KeyHeld),
        (write(T, 256, LONG), Refusal::OtherSite),
        (write(T, 2_048, LONG), Refusal::Impossible),
        (write(T + 2, 3, LONG), Refusal::NotHeld),
    ] {
        assert!(takes(&book, call, Err(due)), "{call:?}");
        assert!(!takes(&book, call, long), "{call:?}");
    }
    assert!(!takes(&book, Call::Read { site: 1, transaction: T, key: 3 }, long));
}

#[test]
fn the_book_finds_a_29_after_the_commit_request_and_past_a_later_install() {
    let mut book = book();
    let long = Err(Refusal::DoesNotFit);
    let decided = |number| {
        let decision = Some(Decision::Commit(number));
        Ok(Answer::Sent(Sent { words: 0, decision }))
    };
    let commit = Call::Commit { site: 1, transaction: T + 1 };
    assert!(enters(&mut book, commit, decided(1)));
    assert!(!takes(&book, write(T + 1, 4, LONG), long), "27 is due");
    assert!(!takes(&book, write(T, 4, LONG), long), "9 is due");
    let install = Answer::Installed(InstallDone { words: 0, pair: Pair::new(1, 1) });
    assert!(enters(&mut book, Call::Install { site: 1 }, Ok(install)));
    assert!(!takes(&book, write(T + 1, 4, LONG), long), "5 is due");
    assert!(!takes(&book, write(T, 4, LONG), long), "10 is due");
    assert!(takes(&book, write(T, 3, LONG), long));
    for key in 10..25 {
        assert!(takes(&book, write(T, key, LONG), long));
        assert!(enters(&mut book, write(T, key, FRESH), Ok(Answer::Done)));
    }
    assert!(!takes(&book, write(T, 25, LONG), long), "11 is due");
    assert!(takes(&book, write(T, 24, LONG), long));
}

#[test]
fn the_book_finds_a_value_that_is_of_no_one_write() {
    let book = book();
    let read = |value: Value| {
        let call = Call::Read { site: 1, transaction: T, key: 3 };
        takes(&book, call, Ok(Answer::Value(value)))
    };
    assert!(read(Value::new(30, 12)));
    for (start, length) in [(30, 0), (0, 12), (12, 30), (40, 12), (0, 0)] {
        assert!(!read(Value::new(start, length)), "{start} {length}");
    }
    let mut copies = vec![Copy::start(); COPIES];
    copies[0].values[3].length = 12;
    assert!(book.clone().enter(&Call::Emit, &Ok(Answer::Done), &[], &copies).is_err());
}

#[test]
fn the_book_finds_an_answer_that_does_not_fit() {
    let book = book();
    // At a snapshot of which an install is forgotten a search may give any value that fits.
    let mut forgotten = book.clone();
    for serial in 10..43 {
        let begin = Call::Begin { site: 1, desk: HOUSE };
        assert!(enters(&mut forgotten, begin, Ok(Answer::Begun(T + serial))));
        let commit = Call::Commit { site: 1, transaction: T + serial };
        let decision = Some(Decision::Commit(serial));
        let sent = Answer::Sent(Sent { words: 0, decision });
        assert!(enters(&mut forgotten, commit, Ok(sent)));
        let install = Answer::Installed(InstallDone { words: 0, pair: Pair::new(serial, 1) });
        assert!(enters(&mut forgotten, Call::Install { site: 1 }, Ok(install)));
    }
    let search = Call::Search { site: 1, snapshot: 0, key: 3 };
    for (value, holds) in [(Value::new(u64::MAX, 0), true), (LONG, false)] {
        let found = Answer::Found(Found { value, looked_at: 0 });
        assert_eq!(takes(&forgotten, search, Ok(found)), holds, "{value}");
    }
    let value = Call::Value { copy: 1, key: 3 };
    assert!(takes(&book, value, Ok(Answer::CopyValue(FRESH, Pair::default()))));
    assert!(!takes(&book, value, Ok(Answer::CopyValue(LONG, Pair::default()))));
}
