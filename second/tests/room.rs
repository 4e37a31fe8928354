//! The program `room`: its lines, its blocks and their sums, and random scripts (Q1.1 to Q1.7).

mod common;

use std::collections::BTreeMap;

use common::bytes::{bytes_of, lay_word, many, merged, pattern};
use second::room::line::{parse, Line};
use second::room::{random, Room};

/// A room that obeys lines and gives what each printed, without the line's number.
struct Script(Room, u64);

impl Script {
    fn new() -> Self {
        Script(Room::default(), 0)
    }

    fn say(&mut self, line: impl AsRef<[u8]>) -> String {
        self.1 += 1;
        let mut output = String::new();
        self.0.line(line.as_ref(), &mut output);
        if output.is_empty() {
            return output;
        }
        assert!(output.ends_with('\n') && output.matches('\n').count() == 1);
        let (number, said) = output.trim_end().split_once(' ').unwrap();
        assert_eq!(number, self.1.to_string());
        said.to_string()
    }

    /// What stands behind the `;`.
    fn sums(&mut self, line: impl AsRef<[u8]>) -> [u64; 3] {
        let said = self.say(line);
        let sums = said.split_once("; ").unwrap().1.split(' ').map(|sum| sum.parse().unwrap());
        sums.collect::<Vec<u64>>().try_into().unwrap()
    }
}

fn replay(words: &[u64]) -> String {
    bytes_of(words).iter().fold("replay ".to_string(), |line, byte| format!("{line}{byte:02x}"))
}

fn fnv(bytes: &[u8]) -> u64 {
    let mut sum: u64 = 14_695_981_039_346_656_037;
    for &byte in bytes {
        sum ^= u64::from(byte);
        sum = sum.wrapping_mul(1_099_511_628_211);
    }
    sum
}

/// Blocks of copy, record and answer with bytes laid behind their beginning.
fn blocks(shift: usize, copy: &[u8], record: &[u8], answer: &[u8]) -> [u64; 3] {
    [(33_024, copy), (4_352, record), (256, answer)].map(|(length, laid)| {
        let mut block = pattern(length);
        block[64 + shift..][..laid.len()].copy_from_slice(laid);
        fnv(&block)
    })
}

#[test]
fn no_line_prints_anything_else() {
    let mut script = Script::new();
    let record = replay(&merged(1, 1, &[(5, 700, 0)]));
    for (line, due) in [
        ("start", "ok"),
        ("value 5", "ok 0 0 0 0"),
        (&record, "ok 1 1"),
        (&record, "refused 14"),
        (&record.to_uppercase().replace("REPLAY", "replay"), "refused 14"),
        ("value 5", "ok 700 0 1 1"),
        ("value 00000000000000000000000000005", "ok 700 0 1 1"),
        ("replay -", "refused 2"),
        ("replay 00", "refused 2"),
        ("value 2048", "refused 2"),
        ("value 18446744073709551615", "refused 2"),
        ("", ""),
        ("# value 5", ""),
        ("copy 32785", "ok"),
        ("value 5", "refused 2"),
        ("start", "refused 2"),
        (&record, "refused 2"),
        ("copy 32784", "ok"),
        ("answer 31", "ok"),
        ("value 5", "refused 2"),
        ("answer 32", "ok"),
        ("word 12 9", "ok"),
        ("word 0 18446744073709551615", "ok"),
        ("value 5", "ok 9 0 18446744073709551615 1"),
        ("word 4096 7", "ok"),
        ("word 4097 8", "ok"),
        ("value 2047", "ok 7 8 18446744073709551615 1"),
    ] {
        assert_eq!(script.say(line), due, "{line}");
    }
}

#[test]
fn no_sum_is_of_another_block() {
    let mut script = Script::new();
    assert_eq!(script.say("start"), "ok");
    assert_eq!(script.say("shift 0"), "ok");
    assert_eq!(script.sums("sums"), blocks(0, &[], &[], &[]));
    let zeros = [0; 32_784];
    assert_eq!(script.sums("start"), blocks(0, &zeros, &[], &[]));
    let words = merged(3, 2, &[(5, 700, 12)]);
    let (record, mut copy) = (bytes_of(&words), zeros);
    for (place, word) in [(0, 3), (1, 2), (12, 700), (13, 12)] {
        lay_word(&mut copy, place, word);
    }
    assert_eq!(script.sums(replay(&words)), blocks(0, &copy, &record, &[]));
    let answer = bytes_of(&[700, 12, 3, 2]);
    assert_eq!(script.sums("value 5"), blocks(0, &copy, &record, &answer));
    assert_eq!(script.sums("value 2048"), blocks(0, &copy, &record, &[]));
    assert_eq!(script.sums("replay 0102"), blocks(0, &copy, &[1, 2], &[]));
    assert_eq!(script.sums("replay -"), blocks(0, &copy, &[], &[]));
    lay_word(&mut copy, 4_097, 258);
    assert_eq!(script.sums("word 4097 258"), blocks(0, &copy, &[], &[]));
    assert_eq!(script.say("sums").split("; ").next(), Some("ok"));
}

#[test]
fn no_shift_keeps_a_byte_or_moves_the_bytes_around_a_buffer() {
    let (mut script, words) = (Script::new(), merged(3, 2, &many(128)));
    let record = bytes_of(&words);
    script.say("sums");
    for shift in (0..=15).rev() {
        script.say("start");
        assert_eq!(script.sums(format!("shift {shift}")), blocks(0, &[], &[], &[]));
        let mut copy = [0; 32_784];
        assert_eq!(script.sums("start"), blocks(shift, &copy, &[], &[]));
        lay_word(&mut copy, 0, 3);
        lay_word(&mut copy, 1, 2);
        for (key, start, length) in many(128) {
            lay_word(&mut copy, 2 + 2 * key as usize, start);
            lay_word(&mut copy, 3 + 2 * key as usize, length);
        }
        assert_eq!(script.sums(replay(&words)), blocks(shift, &copy, &record, &[]));
        let answer = bytes_of(&[1_127, 1, 3, 2]);
        assert_eq!(script.sums("value 127"), blocks(shift, &copy, &record, &answer));
    }
    assert_eq!(script.say("shift 16").split(';').next(), Some("refused 2"));
}

#[test]
fn a_shift_keeps_the_lengths_lent() {
    let mut script = Script::new();
    for (line, due) in [
        ("copy 8", "ok"),
        ("shift 3", "ok"),
        ("start", "refused 2"),
        ("copy 32784", "ok"),
        ("answer 0", "ok"),
        ("shift 0", "ok"),
        ("start", "ok"),
        ("value 0", "refused 2"),
    ] {
        assert_eq!(script.say(line), due, "{line}");
    }
}

const BAD: [&str; 50] = [
    " ",
    "  ",
    " #",
    "stop",
    "Start",
    "start ",
    " start",
    "start 0",
    "start\r",
    "\tstart",
    "start\0",
    "replay",
    "replay ",
    "replay 0",
    "replay 000",
    "replay 0g",
    "replay 0G",
    "replay +1",
    "replay --",
    "replay 00 00",
    "replay  00",
    "replay -00",
    "value",
    "value ",
    "value 1 2",
    "value  1",
    "value 1 ",
    "value -1",
    "value +1",
    "value a",
    "value 18446744073709551616",
    "value 36893488147419103232",
    "copy",
    "copy 32801",
    "copy 18446744073709551615",
    "copy 1 2",
    "copy 4294967296",
    "answer",
    "answer 97",
    "answer 256",
    "shift",
    "shift 16",
    "shift -1",
    "word",
    "word 0",
    "word 4098 0",
    "word 0 18446744073709551616",
    "word 0 1 2",
    "sums 1",
    "sum",
];

#[test]
fn no_bad_line_touches_a_block() {
    let mut script = Script::new();
    let words = merged(3, 2, &[(5, 700, 12)]);
    for line in ["sums", "start", &replay(&words)] {
        script.say(line);
    }
    let left = script.sums("value 5");
    for line in BAD {
        let said = script.say(line);
        assert!(said.starts_with("refused 2; "), "{line:?}: {said}");
        assert_eq!(script.sums("sums"), left, "{line:?}");
    }
}

#[test]
fn no_line_above_its_length_is_obeyed() {
    let mut script = Script::new();
    script.say("start");
    let value = |bytes: usize| format!("value {}5", "0".repeat(bytes - 7));
    assert_eq!(script.say(value(9_999)), "ok 0 0 0 0");
    assert_eq!(script.say(value(10_000)), "ok 0 0 0 0");
    assert_eq!(script.say(value(10_001)), "refused 2");
    assert_eq!(script.say(value(100_000)), "refused 2");
    let digits = |bytes: usize| format!("replay {}", "00".repeat(bytes)).into_bytes();
    assert_eq!(parse(&digits(4_096)), Some(Line::Replay(vec![0; 4_096])));
    assert_eq!(parse(&digits(4_097)), None);
    assert_eq!(parse(&digits(4_996)), None);
}

#[test]
fn a_random_script_is_a_beginning_of_the_longer_and_no_other_shares_it() {
    let whole = random::script(9, 400, 7);
    assert_eq!(whole.iter().filter(|&&byte| byte == b'\n').count(), 400);
    assert!(whole.starts_with(b"sums\nstart\n"));
    for lines in [0, 1, 2, 3, 150, 399] {
        let part = random::script(9, lines, 7);
        assert!(whole.starts_with(&part), "{lines}");
        assert_eq!(part.iter().filter(|&&byte| byte == b'\n').count() as u64, lines);
    }
    for other in [random::script(9, 400, 8), random::script(8, 400, 7), random::script(7, 400, 9)] {
        assert_ne!(whole[..200], other[..200]);
    }
}

/// How often each verb of random scripts has each outcome.
fn outcomes(seed: u64, pieces: u64, lines: u64) -> BTreeMap<String, u64> {
    let mut met = BTreeMap::new();
    for place in 0..pieces {
        let (mut script, text) = (Script::new(), random::script(seed, lines, lines * place));
        for line in text.split(|&byte| byte == b'\n') {
            let said = script.say(line);
            let verb = String::from_utf8_lossy(line).split(' ').next().unwrap().to_string();
            let outcome = said.split(';').next().unwrap();
            let outcome = if outcome.starts_with("ok") { "ok" } else { outcome };
            *met.entry(format!("{verb} {outcome}")).or_default() += 1;
        }
    }
    met
}

#[test]
fn random_scripts_reach_each_refusal_of_each_call_and_no_other() {
    let met = outcomes(1, 4, 1_500);
    let count = |name: &str| met.get(name).copied().unwrap_or_default();
    for name in ["start ok", "replay ok", "value ok", "copy ok", "answer ok", "shift ok", "word ok"]
    {
        assert!(count(name) > 20, "{name}: {}", count(name));
    }
    for name in ["start refused 2", "replay refused 2", "replay refused 14", "value refused 2"] {
        assert!(count(name) > 10, "{name}: {}", count(name));
    }
    assert!(count("replay ok") > 2_500, "{}", count("replay ok"));
    let known = [" ok", " refused 2", "replay refused 14", " "];
    assert!(met.keys().all(|name| known.iter().any(|known| name.ends_with(known))));
}
