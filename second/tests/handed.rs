//! States as a caller hands them in: whose replies came, gathered lists, numbers of
//! transactions, sources of the merger.

mod common;

use common::probed::House;

const T: u64 = (1 << 32) + 1;
const OTHER: u64 = (2 << 32) + 1;

impl House {
    /// T at site 1, with the participants 1, 2 and 3, in a stage.
    fn in_stage(stage: u64, heard: u64) -> Self {
        let mut house = House::after(4, &["begin 1"]);
        for (field, value) in [(2, stage), (3, 7), (5, heard)] {
            house.say(&format!("live 1 {T} {field} {value}"));
        }
        house
    }

    fn message(&mut self, kind: u64, from: u64) -> &str {
        self.say(&format!("head {kind} {from} 1 1"));
        self.say(&format!("word 5 {T}"));
        self.say("message 1")
    }

    /// T at site 1 is prepared and counts one entry.
    fn with_entry(entry: [u64; 3]) -> Self {
        let mut house = House::after(3, &["begin 1"]);
        for (field, value) in [(2, 2), (3, 3), (7, 1)] {
            house.say(&format!("live 1 {T} {field} {value}"));
        }
        for (place, word) in entry.into_iter().enumerate() {
            house.say(&format!("list 1 {T} {place} {word}"));
        }
        house
    }
}

#[test]
fn a_joined_of_another_site_is_not_the_one_outstanding() {
    let mut house = House::in_stage(1, 8);
    house.message(2, 2);
    assert_eq!(house.say(&format!("commit 1 {T}")), "refused 7");
    assert_eq!(house.message(2, 3), "ok");
    assert_eq!(house.say(&format!("commit 1 {T}")), "ok");
}

#[test]
fn a_list_of_another_site_is_not_the_one_outstanding() {
    let mut house = House::in_stage(2, 8);
    assert_eq!(house.message(4, 2), "ok");
    assert_eq!(house.say("letter 1 2 1"), "refused 17");
    assert_eq!(house.message(4, 3), "ok");
    assert!(house.say("letter 1 2 1").starts_with("ok 10 "));
}

#[test]
fn a_vote_of_another_site_is_not_the_one_outstanding() {
    let mut house = House::in_stage(3, 8);
    assert_eq!(house.message(6, 2), "ok");
    assert_eq!(house.message(6, 3), "ok 1");
}

#[test]
fn a_mask_without_the_own_site_is_not_that_of_a_lone_participant() {
    let mut house = House::after(3, &["begin 1", &format!("live 1 {T} 3 2")]);
    assert_eq!(house.say(&format!("commit 1 {T}")), "refused 7");
    assert_eq!(house.say(&format!("enlist 1 {T} 1")), "refused 27");
}

#[test]
fn an_impossible_state_of_a_participant_goes_before_26() {
    let mut house = House::after(3, &["head 1 1 2 1", &format!("word 5 {T}"), "message 2"]);
    let calls = [format!("enlist 2 {T} 3"), format!("abandon 2 {T}"), format!("commit 2 {T}")];
    for (field, past, possible) in [(2, 6, 4), (3, 8, 3), (9, 17, 0)] {
        house.say(&format!("live 2 {T} {field} {past}"));
        assert_eq!(calls.each_ref().map(|call| house.say(call).to_string()), ["refused 2"; 3]);
        house.say(&format!("live 2 {T} {field} {possible}"));
        assert_eq!(calls.each_ref().map(|call| house.say(call).to_string()), ["refused 26"; 3]);
    }
    // Of the three only commit is lent the lists.
    house.say(&format!("live 2 {T} 7 1"));
    let answers = calls.each_ref().map(|call| house.say(call).to_string());
    assert_eq!(answers, ["refused 26", "refused 26", "refused 2"]);
}

#[test]
fn an_entry_that_no_list_has_gives_2() {
    let bad = [[0, 3, 1], [2 << 32, 3, 1], [(4 << 32) + 1, 3, 1], [OTHER, 8, 1], [OTHER, 3, 2]];
    for entry in bad {
        let mut house = House::with_entry(entry);
        assert_eq!(house.message(4, 2), "refused 2", "{entry:?}");
        assert_eq!(house.say(&format!("commit 1 {T}")), "refused 2");
        assert_eq!(house.say("begin 1"), format!("ok {}", T + 1), "begin is lent no list");
        assert_eq!(house.say(&format!("commit 1 {}", T + 1)), "refused 2", "another part");
    }
    let mut good = House::with_entry([OTHER, 7, 0]);
    assert_eq!(good.message(4, 2), "ok");
    assert!(good.say("letter 1 2 1").starts_with("ok 13 "), "CERT carries the entry");
}

#[test]
fn words_behind_the_count_and_lists_of_free_places_are_not_looked_at() {
    let mut behind = House::with_entry([0, u64::MAX, 7]);
    assert_eq!(behind.message(4, 2), "refused 2");
    behind.say(&format!("live 1 {T} 7 0"));
    assert_eq!(behind.message(4, 2), "ok");
    let mut free = House::with_entry([0, u64::MAX, 7]);
    free.say(&format!("live 1 {T} 2 0"));
    assert_eq!(free.message(4, 2), "ok", "only the channel steps");
    assert_eq!(free.say(&format!("list 1 {T} 0 1")), "refused 5");
}

#[test]
fn a_part_that_is_held_has_a_number_of_the_house() {
    for number in [0, 1, 1 << 32, 4 << 32, (4 << 32) + 1, u64::MAX] {
        let mut house = House::after(3, &["begin 1", &format!("live 1 {T} 0 {number}")]);
        assert_eq!(house.say("report 1"), "refused 2", "{number}");
        assert_eq!(house.say(&format!("live 1 {number} 2 0")), "ok");
        assert_eq!(house.say("report 1"), "ok 0", "a free place is not asked");
    }
}

#[test]
fn an_install_that_is_remembered_has_a_number_of_the_house() {
    let commit = format!("commit 1 {T}");
    let mut house = House::after(3, &["begin 1", &commit, "install 1"]);
    house.say("past 1 2 0 7");
    assert_eq!(house.say("report 1"), "ok 1", "an unused slot is not asked");
    house.say("past 1 1 0 0");
    assert_eq!(house.say("report 1"), "refused 2");
    house.say(&format!("past 1 1 0 {OTHER}"));
    assert_eq!(house.say("report 1"), "ok 1");
    house.say("site 1 4 2");
    assert_eq!(house.say("report 1"), "refused 2", "the slot is used now");
}

#[test]
fn no_part_is_queued_at_a_site_that_the_house_lacks() {
    let mut house = House::of(3);
    for site in 4..=8 {
        for count in [1, 16, 17, u64::MAX] {
            house.say(&format!("source {site} 3 {count}"));
            assert_eq!(house.say("emit"), "refused 2", "{count} at {site}");
        }
        house.say(&format!("source {site} 3 0"));
        house.say(&format!("source {site} 0 {}", u64::MAX));
        assert_eq!(house.say("emit"), "refused 17");
    }
}
