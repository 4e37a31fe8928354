//! Each reason of abort, votes, and clocks.

mod common;

use common::*;
use second::answer::Decision;
use second::site::Stage;

const T: u64 = (1 << 32) + 1;

#[test]
fn a_vote_of_5_aborts_with_it() {
    // Site 2 never heard of the transaction: its answer to PREPARE is 5.
    let mut two = site(2, 2);
    let mut prepare = message(3, 1, 2, T);
    (prepare[6], prepare[7]) = (40, 3);
    let (decision, votes) = take(&mut two, &prepare);
    assert_eq!(decision, None);
    assert_eq!(votes, [[10, 6, 2, 1, 1, T, 40, 5, 0, 0]]);
    assert_eq!((two.clock, two.taken[0], two.live.len()), (40, 1, 0));
    let mut one = site(2, 1);
    one.begin(HOUSE).unwrap();
    (one.live[0].participants, one.live[0].heard) = (3, 2);
    one.commit(T, &mut buffer()).unwrap();
    let (decision, sent) = take(&mut one, &votes[0]);
    assert_eq!(decision, Some(Decision::Abort(5)));
    assert_eq!(sent, [[10, 8, 1, 2, 2, T, 0, 0, 0, 0]]);
    assert_eq!((one.clock, one.live.len()), (40, 0));
}

#[test]
fn a_full_site_aborts_12_at_the_commit_request() {
    let mut script = String::from("sites 2\n");
    for serial in 1..=16 {
        script += &format!("begin 2 => ok {}\n", (2u64 << 32) + serial);
    }
    script += &format!(
        "begin 2 => refused 12\nbegin 1 => ok {T}\nenlist {T} 2\ntake 1 2\ncommit {T} => refused 7\n\
         take 2 1\nwrite 2 {T} 256 1 0 => refused 5\nwrite 1 {T} 1 1 0\nenlist {T} 2 => refused 27\n\
         commit {T} => ok abort 12\ncommit {T} => refused 5\ntake 1 2\ntake 1 2 => refused 17\n"
    );
    play(&script);
}

#[test]
fn a_spent_clock_aborts_13() {
    let mut one = site(1, 1);
    one.clock = u64::MAX - 1;
    let last = one.begin(HOUSE).unwrap();
    let (decision, _) = sent(&mut one, |site, out| site.commit(last, out));
    assert_eq!(decision, Some(Decision::Commit(u64::MAX)));
    let late = one.begin(HOUSE).unwrap();
    let (decision, _) = sent(&mut one, |site, out| site.commit(late, out));
    assert_eq!(decision, Some(Decision::Abort(13)));
    assert_eq!((one.clock, one.find(late)), (u64::MAX, None));
}

#[test]
fn a_spent_clock_aborts_13_on_the_last_vote() {
    let mut one = site(2, 1);
    one.begin(HOUSE).unwrap();
    one.live[0].participants = 3;
    one.live[0].stage = Stage::Open { mark: 0 };
    let mut yes = message(6, 2, 1, T);
    yes[6] = u64::MAX;
    let (decision, sent) = take(&mut one, &yes);
    assert_eq!(decision, Some(Decision::Abort(13)));
    assert_eq!(sent, [[10, 8, 1, 2, 1, T, 0, 0, 0, 0]]);
}

/// A save over sites 1 and 2 is seen at 1 and missed at 2.
const SPLIT: &str = "sites 2
    begin 1 => ok 4294967297
    enlist 4294967297 2
    take 1 2
    take 2 1
    write 1 4294967297 5 50 0
    write 2 4294967297 261 60 0
    commit 4294967297
    take 1 2
    take 2 1
    take 1 2
    take 2 1 => ok 1
    install 1 => ok 1 1
    begin 1 => ok 4294967298
    enlist 4294967298 2
    take 1 2
    take 1 2
    take 2 1\n";

#[test]
fn seen_and_missed_where_they_touch_is_18() {
    // Dependent at the seeing site, not marked.
    let seen =
        "read 1 4294967298 5 => ok 50 0\ncommit 4294967298\ntake 1 2\ntake 2 1 => ok abort 18\n";
    play(&format!("{SPLIT}{seen}take 1 2\nreport 1 => ok 1\n"));
    // Marked at the missing site, not dependent at the seeing one.
    let marked =
        "read 2 4294967298 261 => ok 0 0\ncommit 4294967298\ntake 1 2\ntake 2 1 => ok abort 18\n";
    play(&format!("{SPLIT}{marked}"));
    // Neither: it commits.
    let apart =
        "read 2 4294967298 262 => ok 0 0\ncommit 4294967298\ntake 1 2\ntake 2 1\ntake 1 2\n";
    play(&format!("{SPLIT}{apart}take 2 1 => ok 2\n"));
}

/// Lone saves at site 1 that push older ones off its history.
fn lone_saves(first: u64, count: u64, number: u64) -> String {
    let save = |serial: u64| {
        let (transaction, number) = ((1u64 << 32) + serial, number + serial - first);
        format!(
            "begin 1 => ok {transaction}\ncommit {transaction} => ok {number}\n\
             install 1 => ok {number} 1\n"
        )
    };
    (first..first + count).map(save).collect()
}

#[test]
fn a_listed_one_that_is_off_record_is_19() {
    let split = SPLIT.split_once("begin 1 => ok 4294967298").unwrap().0;
    let ending = |late: u64, end: &str| {
        format!(
            "begin 1 => ok {late}\nenlist {late} 2\ntake 1 2\ntake 1 2\ntake 2 1\ncommit {late}\n\
             take 1 2\ntake 2 1{end}\n"
        )
    };
    let late = (1 << 32) + 34;
    play(&format!("{split}{}{}", lone_saves(2, 32, 2), ending(late, " => ok abort 19")));
    play(&format!("{split}{}{}", lone_saves(2, 31, 2), ending(late - 1, "")));
}

#[test]
fn a_forgotten_install_after_the_snapshot_is_19() {
    // At the coordinator.
    let own = lone_saves(2, 33, 1);
    play(&format!("sites 1\nbegin 1 => ok {T}\n{own}commit {T} => ok abort 19\n"));
    let fewer = lone_saves(2, 32, 1);
    play(&format!("sites 1\nbegin 1 => ok {T}\n{fewer}commit {T} => ok 33\n"));
    // At a participant: a no in the place of its CONC.
    let far = 2u64 << 32 | 1;
    let saves = lone_saves(1, 33, 1);
    play(&format!(
        "sites 2\nbegin 2 => ok {far}\nenlist {far} 1\ntake 2 1\ntake 1 2\n{saves}commit {far}\n\
         take 2 1\nreport 2 => ok 0\ntake 1 2 => ok abort 19\nreport 2 => ok 33\ntake 2 1\n"
    ));
}

#[test]
fn abandon_aborts_20_before_the_decision() {
    let abandoned = "commit 4294967298\nabandon 4294967298 => ok abort 20\n";
    play(&format!("{SPLIT}{abandoned}take 1 2\ntake 2 1\ntake 1 2\n"));
    let begun = format!("sites 1\nbegin 1 => ok {T}\n");
    play(&format!("{begun}abandon {T} => ok abort 20\nabandon {T} => refused 5\n"));
    play(&format!("{begun}commit {T} => ok 1\nabandon {T} => refused 27\n"));
}
