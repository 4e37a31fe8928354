//! The traps (T1 to T4), the anomaly that the base allows, and frames of messages.

mod common;

use common::*;
use second::answer::Decision;
use second::value::Value;

const T: u64 = (1 << 32) + 1;

#[test]
fn prepare_never_goes_out_before_every_joined() {
    play(
        "sites 3
         begin 1 => ok 4294967297
         enlist 4294967297 2
         enlist 4294967297 3
         take 1 2
         take 2 1
         commit 4294967297 => refused 7
         take 1 2 => refused 17
         take 1 3
         commit 4294967297 => refused 7
         take 3 1
         commit 4294967297 => ok
         take 1 2 => ok",
    );
}

#[test]
fn a_full_site_does_not_leave_join_untaken() {
    let mut two = site(2, 2);
    for _ in 0..16 {
        two.begin(HOUSE).unwrap();
    }
    let (_, replies) = take(&mut two, &message(1, 1, 2, T));
    assert_eq!(replies, [[10, 2, 2, 1, 1, T, 0, 12, 0, 0]]);
    assert_eq!((two.taken[0], two.live.len()), (1, 16));
}

#[test]
fn commit_does_not_install_past_the_queues_head() {
    // Two saves over both sites: each site decides its own and must wait for
    // the other's, which stands before it with an open mark.
    play(
        "sites 2
         begin 1 => ok 4294967297
         enlist 4294967297 2
         begin 2 => ok 8589934593
         enlist 8589934593 1
         take 1 2
         take 2 1
         take 1 2
         take 2 1
         write 2 4294967297 256 7 0
         commit 4294967297
         commit 8589934593
         take 1 2
         take 2 1
         take 2 1
         take 1 2
         take 1 2
         take 2 1
         take 2 1 => ok 1
         take 1 2 => ok 1
         install 2 => refused 17
         take 1 2
         install 2 => ok 1 1
         install 2 => ok 1 2
         install 1 => refused 17
         take 2 1
         install 1 => ok 1 1
         install 1 => ok 1 2",
    );
}

#[test]
fn a_silent_log_is_not_a_finished_one() {
    play(
        "sites 2
         begin 1 => ok 4294967297
         commit 4294967297 => ok 1
         install 1 => ok 1 1
         merge 1
         emit => refused 17
         report 2 => ok 0
         merge 2
         emit => refused 17",
    );
}

#[test]
fn two_readers_may_see_two_independent_saves_in_opposite_orders() {
    let (first, second) = (4_294_967_297u64, 8_589_934_593u64);
    let (one, two) = (first + 1, second + 1);
    play(&format!(
        "sites 2
         begin 1 => ok {first}
         begin 2 => ok {second}
         begin 1 => ok {one}
         write 1 {one} 5 50 0
         commit {one} => ok 1
         install 1 => ok 1 1
         begin 2 => ok {two}
         write 2 {two} 261 60 0
         commit {two} => ok 1
         install 2 => ok 1 2
         enlist {first} 2
         enlist {second} 1
         take 1 2
         take 2 1
         take 1 2
         take 2 1
         read 1 {first} 5 => ok 0 0
         read 2 {first} 261 => ok 60 0
         read 1 {second} 5 => ok 50 0
         read 2 {second} 261 => ok 0 0
         commit {first}
         take 1 2
         take 2 1
         take 1 2
         take 2 1 => ok 2
         take 1 2
         commit {second}
         take 2 1
         take 1 2
         take 2 1
         take 1 2 => ok 3"
    ));
}

#[test]
fn messages_for_a_transaction_not_held_only_step_the_channel() {
    let mut two = site(2, 2);
    two.clock = 3;
    for (channel, kind) in [(1, 5), (2, 7), (3, 8)] {
        let mut words = message(kind, 1, 2, T);
        words[4] = channel;
        words[6] = if kind == 7 { 99 } else { 0 };
        let mut due = two.clone();
        due.taken[0] = channel;
        assert_eq!(take(&mut two, &words), (None, vec![]));
        assert_eq!(two, due);
    }
    let mut one = site(2, 1);
    for (channel, kind) in [(1, 2), (2, 4), (3, 6)] {
        let mut words = message(kind, 2, 1, T);
        words[4] = channel;
        words[6] = if kind == 6 { 99 } else { 0 };
        let mut due = one.clone();
        due.taken[1] = channel;
        assert_eq!(take(&mut one, &words), (None, vec![]));
        assert_eq!(one, due);
    }
}

#[test]
fn words_of_a_whole_save() {
    let (mut one, mut two) = (site(3, 1), site(3, 2));
    two.clock = 8;
    let other = two.begin(HOUSE).unwrap();
    two.write(other, 300, Value::new(1, 4)).unwrap();
    assert_eq!(two.commit(other, &mut buffer()).unwrap().decision, Some(Decision::Commit(9)));
    one.begin(HOUSE).unwrap();
    let (_, join) = sent(&mut one, |site, out| site.enlist(T, 2, out));
    assert_eq!(join, [[10, 1, 1, 2, 1, T, 0, 0, 0, 0]]);
    let (_, joined) = take(&mut two, &join[0]);
    assert_eq!(joined, [[10, 2, 2, 1, 1, T, 0, 0, 0, 0]]);
    take(&mut one, &joined[0]);
    two.read(T, 300).unwrap();
    let (_, prepare) = sent(&mut one, |site, out| site.commit(T, out));
    assert_eq!(prepare, [[10, 3, 1, 2, 2, T, 0, 3, 0, 0]]);
    let (_, conc) = take(&mut two, &prepare[0]);
    assert_eq!(conc, [[13, 4, 2, 1, 2, T, 0, 0, 1, 10, other, 2, 1]]);
    let (_, cert) = take(&mut one, &conc[0]);
    assert_eq!(cert, [[13, 5, 1, 2, 3, T, 0, 0, 1, 10, other, 2, 1]]);
    let (_, vote) = take(&mut two, &cert[0]);
    assert_eq!(vote, [[10, 6, 2, 1, 3, T, 9, 0, 0, 0]]);
    let (decision, commit) = take(&mut one, &vote[0]);
    assert_eq!(decision, Some(Decision::Commit(10)));
    assert_eq!(commit, [[10, 7, 1, 2, 4, T, 10, 0, 0, 0]]);
    assert_eq!(take(&mut two, &commit[0]), (None, vec![]));
    assert_eq!(two.clock, 10);
    let mut out = vec![7; 57];
    assert_eq!(two.install(&mut out).unwrap().words, 12);
    assert_eq!(out[..13], [12, 1, 2, 9, 2, other, 2, 1, 9, 300, 1, 4, 7]);
    assert_eq!(two.install(&mut out).unwrap().words, 9);
    assert_eq!(out[..9], [9, 1, 2, 10, 1, T, 3, 0, 0]);
}
