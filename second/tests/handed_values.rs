//! Handed states with values that do not fit, and the lengths of what is lent (Q12.4,
//! Q12.6, Q12.7).

mod common;

use common::probed::House;

const T: u64 = (1 << 32) + 1;
const LAST: u64 = u64::MAX;

/// Calls at site 1, none of which a possible state refuses 2.
fn calls() -> [String; 10] {
    [
        "begin 1".to_string(),
        format!("enlist 1 {T} 2"),
        format!("read 1 {T} 3"),
        "search 1 0 3".to_string(),
        format!("write 1 {T} 3 7 0"),
        format!("commit 1 {T}"),
        format!("abandon 1 {T}"),
        "message 1".to_string(),
        "install 1".to_string(),
        "report 1".to_string(),
    ]
}

/// Each call at site 1 is refused 2 and alters nothing, or none is refused 2.
fn is_stopped(house: &mut House) -> bool {
    house.say("head 8 2 1 1");
    house.say(&format!("word 5 {}", (2u64 << 32) + 9));
    let mut stopped = Vec::new();
    for call in calls() {
        stopped.push(house.say(&call) == "refused 2");
        assert!(!stopped[0] || house.left.ends_with(" 1 0"), "{call} altered a state");
    }
    assert!(stopped.iter().all(|&it| it == stopped[0]), "{stopped:?}");
    stopped[0]
}

/// T at site 1 of two wrote 30 and 12 at key 3, then 40 and 0 at key 4.
fn written() -> House {
    let lines = ["begin 1", &format!("write 1 {T} 3 30 12"), &format!("write 1 {T} 4 40 0")];
    House::after(2, &lines)
}

#[test]
fn no_part_with_a_long_value_is_called() {
    for (pokes, stops) in [
        (&[(400, LAST - 30)][..], false),
        (&[(400, LAST - 29)], true),
        (&[(300, LAST - 12)], false),
        (&[(300, LAST - 11)], true),
        (&[(401, LAST - 40)], false),
        (&[(401, LAST - 39)], true),
        (&[(301, LAST)], false),
        (&[(301, LAST), (401, 1)], true),
        (&[(300, LAST), (400, LAST)], true),
        (&[(300, 0), (400, LAST)], false),
        // Behind the last value written nothing is looked at.
        (&[(302, LAST), (402, LAST)], false),
        (&[(315, LAST), (415, LAST)], false),
        (&[(316, LAST), (416, LAST)], false),
    ] {
        let mut house = written();
        for (field, word) in pokes {
            assert_eq!(house.say(&format!("live 1 {T} {field} {word}")), "ok");
        }
        assert_eq!(is_stopped(&mut house), stops, "{pokes:?}");
    }
}

#[test]
fn a_value_that_is_set_back_stops_nothing() {
    let mut house = written();
    for (field, before) in [(300, 30), (400, 12)] {
        house.say(&format!("live 1 {T} {field} {LAST}"));
        assert_eq!(house.say("report 1"), "refused 2");
        assert_eq!(house.say("report 2"), "ok 0", "another site has its own parts");
        house.say("room 56");
        assert_eq!(house.say("report 1"), "refused 1", "a short buffer goes before");
        house.say("room 7966");
        house.say(&format!("live 1 {T} {field} {before}"));
        assert_eq!(house.say(&format!("read 1 {T} 3")), "ok 30 12");
    }
    house.say(&format!("live 1 {T} 400 {}", LAST - 30));
    assert_eq!(house.say(&format!("read 1 {T} 3")), format!("ok 30 {}", LAST - 30));
    house.say(&format!("live 1 {T} 301 41"));
    assert_eq!(house.say(&format!("read 1 {T} 4")), "ok 41 0", "the second value written");
}

#[test]
fn no_history_entry_with_a_long_value_is_searched() {
    let mut house = written();
    for line in [format!("commit 1 {T}"), "install 1".to_string(), "begin 1".to_string()] {
        assert!(house.say(&line).starts_with("ok"));
    }
    for (field, word, before, stops) in [
        (400, LAST - 30, 12, false),
        (400, LAST - 29, 12, true),
        (301, LAST, 40, false),
        (300, LAST, 30, true),
        (402, LAST, 0, false),
    ] {
        house.say(&format!("past 1 1 {field} {word}"));
        assert_eq!(house.say("search 1 1 3") == "refused 2", stops, "{field} {word}");
        assert_eq!(house.say("report 1") == "refused 2", stops, "{field} {word}");
        house.say(&format!("past 1 1 {field} {before}"));
        assert_eq!(house.say("search 1 1 3"), "ok 30 12 1");
        assert_eq!(house.say("search 1 1 4"), "ok 40 0 1");
    }
    // A slot that no install has used counts no value.
    house.say(&format!("past 1 2 300 {LAST}"));
    house.say(&format!("past 1 2 400 {LAST}"));
    assert_eq!(house.say("search 1 1 3"), "ok 30 12 1");
    house.say("past 1 1 300 31");
    assert_eq!(house.say("search 1 1 3"), "ok 31 12 1", "a value that fits is answered");
}

/// A house of one with two parts of two writes queued.
fn queued() -> House {
    let mut house = House::of(1);
    for number in [5, 6] {
        house.say(&format!("form 1 1 {number} {}", T + number));
        house.say("word 6 1");
        house.say("writes 2 3 30 12");
        assert_eq!(house.say("merge"), "ok");
    }
    house
}

#[test]
fn no_merger_with_a_long_value_queued_is_called() {
    // The length of the second value of each part.
    for place in [14, 57 + 14] {
        let mut house = queued();
        house.say("form 2 1 6 0");
        for (word, stops) in [(LAST - 31, false), (LAST - 30, true), (LAST, true), (12, false)] {
            assert_eq!(house.say(&format!("queued 1 {place} {word}")), "ok");
            assert_eq!(house.say("merge") == "refused 2", stops, "{word} at {place}");
            if stops {
                assert_eq!(house.say("emit"), "refused 2");
                assert!(house.left.ends_with(" 1 0"));
            }
        }
        assert_eq!(house.say("emit"), format!("ok 5 1 {}", T + 5));
    }
    let mut house = queued();
    house.say(&format!("queued 1 11 {}", LAST - 30));
    for line in ["emit", "record 0 1", "replay 1"] {
        assert!(house.say(line).starts_with("ok"), "{line}");
    }
    assert_eq!(house.say("value 1 3"), format!("ok 30 {} 5 1", LAST - 30));
}

#[test]
fn a_copy_answers_whatever_words_it_has() {
    let mut house = queued();
    for (place, word) in [(2, LAST), (3, 1), (4_096, LAST), (4_097, LAST), (10, 9)] {
        house.say(&format!("copied 1 {place} {word}"));
    }
    for (key, due) in [(0, format!("{LAST} 1")), (2_047, format!("{LAST} {LAST}"))] {
        assert_eq!(house.say(&format!("value 1 {key}")), format!("ok {due} 0 0"));
    }
    assert_eq!(house.say("value 1 4"), "ok 9 0 0 0");
    for line in ["emit", "record 0 1", "replay 1"] {
        assert!(house.say(line).starts_with("ok"), "{line}");
    }
    assert_eq!(house.say("value 1 0"), format!("ok {LAST} 1 5 1"));
    assert_eq!(house.say("value 1 4"), "ok 31 12 5 1");
    assert_eq!(house.say("value 2 0"), "ok 0 0 0 0");
}

#[test]
fn no_length_but_the_whole_is_lent() {
    let read = format!("read 1 {T} 3");
    for (verb, whole, call) in [
        ("base", 4_096, read.as_str()),
        ("places", 1_168, "report 1"),
        ("slots", 2_208, "report 1"),
        ("copies", 4_098, "value 1 3"),
        ("queues", 7_296, "merge"),
    ] {
        let mut house = written();
        house.say("form 2 1 0 0");
        for (length, stops) in [(whole - 1, true), (whole + 1, true), (whole, false), (0, true)] {
            house.say(&format!("{verb} {length}"));
            assert_eq!(house.say(call) == "refused 2", stops, "{verb} {length}");
        }
    }
}

#[test]
fn no_buffer_below_57_takes_a_part_and_none_below_393_a_merged_record() {
    let mut house = written();
    house.say(&format!("commit 1 {T}"));
    for (room, call, due) in [
        (56, "report 1", "refused 1"),
        (57, "report 1", "ok 0"),
        (56, "install 1", "refused 1"),
        (57, "install 1", "ok 1 1"),
        (392, "emit", "refused 1"),
        (393, "emit", "refused 17"),
    ] {
        house.say(&format!("room {room}"));
        assert_eq!(house.say(call), due, "{call} with {room}");
    }
}

#[test]
fn no_checksum_passes_over_a_length() {
    let after = |lines: &[&str]| House::after(1, lines).left;
    let write = |length: u64| format!("write 1 {T} 3 30 {length}");
    assert_ne!(after(&["begin 1", &write(12)]), after(&["begin 1", &write(13)]));
    let past = |length: u64| {
        after(&["begin 1", &write(length), &format!("commit 1 {T}"), "install 1", "begin 1"])
    };
    assert_ne!(past(12), past(13));
    let copied = |word: u64| after(&[&format!("copied 1 3 {word}"), "value 1 9"]);
    assert_ne!(copied(1), copied(2));
}
