//! Each refusal: its number, its place among the causes, and that nothing is altered.

mod common;

use common::stages::*;
use common::*;
use second::answer::{Refusal, Sent};
use second::copy::Copy;
use second::merger::Merger;
use second::site::{Site, Stage};
use second::sizes::*;
use second::table::even;

const FULL: usize = SEND_BUFFER;

type SendingCall = fn(&mut Site, &mut [u64]) -> Result<Sent, Refusal>;

/// Site 1 of a house of two, with one active transaction.
fn begun() -> Site {
    let mut one = site(2, 1);
    one.begin(HOUSE).unwrap();
    one
}

/// The same, with site 2 enlisted and its JOINED outstanding.
fn enlisted() -> Site {
    let mut one = begun();
    one.enlist(T, 2, &mut buffer()).unwrap();
    one
}

/// What enlist of sites 1, 2 and 3, commit and abandon of T each answer: 0 where it
/// is accepted.
fn answers(site: &Site) -> [u64; 5] {
    let calls: [SendingCall; 5] = [
        |site, out| site.enlist(T, 1, out),
        |site, out| site.enlist(T, 2, out),
        |site, out| site.enlist(T, 3, out),
        |site, out| site.commit(T, out),
        |site, out| site.abandon(T, out),
    ];
    calls.map(|call| match call(&mut site.clone(), &mut buffer()) {
        Ok(_) => 0,
        Err(refusal) => {
            refused(site, FULL, refusal.number(), call);
            refusal.number()
        }
    })
}

#[test]
fn a_short_buffer_goes_before_everything() {
    let one = begun();
    refused(&one, FULL - 1, 1, |site, out| site.enlist(T, 9, out));
    refused(&one, 0, 1, |site, out| site.commit(0, out));
    refused(&one, FULL - 1, 1, |site, out| site.abandon(T, out));
    refused(&one, FULL - 1, 1, |site, out| site.message(&[], out));
    refused(&one, 56, 1, |site, out| site.install(out));
    refused(&one, 56, 1, |site, out| site.report(out));
    let mut merger = merger(1);
    assert_eq!(merger.emit(&mut [0; 392]).unwrap_err().number(), 1);
    assert_eq!(merger.emit(&mut [0; 393]).unwrap_err().number(), 17);
}

#[test]
fn impossible_sites_and_keys() {
    let one = begun();
    refused(&one, FULL, 2, |site, out| site.enlist(0, 3, out));
    refused(&one, FULL, 2, |site, out| site.enlist(T, 0, out));
    for key in [2_048, u64::MAX] {
        refused(&one, 0, 2, |site, _| site.read(0, key));
        refused(&one, 0, 2, |site, _| site.write(0, key, bare(1)));
    }
    for (sites, own) in [(0, 1), (9, 1), (3, 0), (3, 4)] {
        assert_eq!(Site::start(sites, &even(sites), own).unwrap_err().number(), 2);
    }
    assert_eq!(Merger::start(0, &[]).unwrap_err().number(), 2);
    assert_eq!(Merger::start(9, &even(9)).unwrap_err().number(), 2);
    assert_eq!(Copy::start().value(2_048).unwrap_err().number(), 2);
}

#[test]
fn a_key_or_message_for_another_site() {
    let one = begun();
    for key in [256, 511, 512, 2_047] {
        refused(&one, 0, 3, |site, _| site.read(0, key));
        refused(&one, 0, 3, |site, _| site.write(0, key, bare(1)));
    }
    let mut far = message(1, 1, 2, T);
    far[4] = 99;
    refused(&one, FULL, 3, |site, out| site.message(&far, out));
}

#[test]
fn a_message_that_is_not_the_next() {
    let mut one = enlisted();
    let mut joined = message(2, 2, 1, T);
    for channel in [0, 2, u64::MAX] {
        joined[4] = channel;
        refused(&one, FULL, 4, |site, out| site.message(&joined, out));
    }
    one.taken[1] = u64::MAX;
    joined[4] = 0;
    refused(&one, FULL, 4, |site, out| site.message(&joined, out));
}

#[test]
fn a_transaction_that_is_not_held() {
    let one = begun();
    for number in [0, T + 1, u64::MAX, (2 << 32) + 1] {
        refused(&one, FULL, 5, |site, out| site.enlist(number, 1, out));
        refused(&one, 0, 5, |site, _| site.read(number, 1));
        refused(&one, 0, 5, |site, _| site.write(number, 1, bare(1)));
        refused(&one, FULL, 5, |site, out| site.commit(number, out));
        refused(&one, FULL, 5, |site, out| site.abandon(number, out));
    }
}

#[test]
fn no_participant_takes_a_call_of_the_coordinator_in_any_stage() {
    let (open, decided) = (Stage::Open { mark: 0 }, Stage::Decided { number: 1 });
    let active = Stage::Active { full: false };
    let stages = participants().map(|two| two.live[0].stage);
    assert_eq!(stages, [active, Stage::Prepared, open, decided, Stage::VotedNo]);
    for two in participants() {
        let stage = two.live[0].stage;
        assert_ne!(two.live[0].outstanding(2), 0, "7 would apply as well");
        assert_eq!(answers(&two), [26; 5], "{stage:?}");
        assert_eq!(answers(&spent(&two)), [26; 5], "{stage:?}, 13 would apply as well");
    }
}

#[test]
fn at_a_participant_1_2_and_5_go_before_26() {
    for two in participants() {
        refused(&two, FULL - 1, 1, |site, out| site.enlist(T, 3, out));
        refused(&two, FULL - 1, 1, |site, out| site.commit(T, out));
        refused(&two, FULL - 1, 1, |site, out| site.abandon(T, out));
        refused(&two, FULL, 2, |site, out| site.enlist(T, 0, out));
        refused(&two, FULL, 2, |site, out| site.enlist(T, 4, out));
        for number in [0, T + 1, (3 << 32) + 1, u64::MAX] {
            refused(&two, FULL, 5, |site, out| site.enlist(number, 3, out));
            refused(&two, FULL, 5, |site, out| site.commit(number, out));
            refused(&two, FULL, 5, |site, out| site.abandon(number, out));
        }
    }
    let [mut aborted, ..] = participants();
    take(&mut aborted, &to_two(2, 8, 0, 0));
    assert_eq!(answers(&aborted), [5; 5]);
}

#[test]
fn the_coordinator_refuses_27_only_where_stage_or_mask_forbids_the_call() {
    let active = |full| Stage::Active { full };
    let (open, decided) = (Stage::Open { mark: 0 }, Stage::Decided { number: 1 });
    // What `answers` gives; then the same with every channel spent.
    let due = [
        (active(false), [27, 0, 0, 0, 0], [27, 13, 13, 0, 0]),
        (active(false), [27, 27, 0, 7, 0], [27, 27, 13, 7, 13]),
        (active(true), [27, 27, 0, 0, 0], [27, 27, 13, 13, 13]),
        (active(false), [27, 27, 0, 0, 0], [27, 27, 13, 13, 13]),
        (Stage::Prepared, [27, 27, 27, 27, 0], [27, 27, 27, 27, 13]),
        (open, [27, 27, 27, 27, 0], [27, 27, 27, 27, 13]),
        (decided, [27; 5], [27; 5]),
    ];
    for (place, (stage, whole, ending)) in due.into_iter().enumerate() {
        let one = &coordinators()[place];
        assert_eq!(one.live[0].stage, stage);
        assert_eq!(answers(one), whole, "{place}: {stage:?}");
        assert_eq!(answers(&spent(one)), ending, "{place}: {stage:?}, channels spent");
        if !one.live[0].is_active() {
            let mut unheard = spent(one);
            unheard.live[0].heard = 0;
            assert_eq!(answers(&unheard), ending, "{stage:?}, 7 would apply as well");
        }
    }
}

#[test]
fn a_read_or_write_after_prepare_or_the_commit_request() {
    let parts = participants().into_iter().zip([256; 5]);
    for (mut site, key) in parts.chain(coordinators().into_iter().zip([0; 7])) {
        // Another one holds the key: 9 would apply as well.
        let other = site.begin(HOUSE).unwrap();
        site.write(other, key, bare(1)).unwrap();
        if site.live[0].is_active() {
            assert_eq!(site.read(T, key), Ok(bare(0)));
            refused(&site, 0, 9, |site, _| site.write(T, key, bare(2)));
            continue;
        }
        refused(&site, 0, 27, |site, _| site.read(T, key));
        refused(&site, 0, 27, |site, _| site.write(T, key, bare(2)));
    }
}

#[test]
fn a_message_out_of_turn() {
    let one = enlisted();
    let mut yes = message(6, 2, 1, T);
    refused(&one, FULL, 27, |site, out| site.message(&message(4, 2, 1, T), out));
    refused(&one, FULL, 27, |site, out| site.message(&yes, out));
    let mut two = site(2, 2);
    take(&mut two, &message(1, 1, 2, T));
    for kind in [1, 5, 7] {
        let early = to_two(2, kind, 0, 0);
        refused(&two, FULL, 27, |site, out| site.message(&early, out));
        refused(&spent(&two), FULL, 27, |site, out| site.message(&early, out));
    }
    two.live[0].stage = Stage::Decided { number: 3 };
    let abort = to_two(2, 8, 0, 0);
    refused(&two, FULL, 27, |site, out| site.message(&abort, out));
    // A yes in the place of a CONC is out of turn, a no is not.
    let mut gathering = one.clone();
    take(&mut gathering, &message(2, 2, 1, T));
    gathering.commit(T, &mut buffer()).unwrap();
    yes[4] = 2;
    refused(&gathering, FULL, 27, |site, out| site.message(&yes, out));
    refused(&spent(&gathering), FULL, 27, |site, out| site.message(&yes, out));
    refused(&gathering, FULL, 27, |site, out| site.message(&to_one(2, 2, 0), out));
}

#[test]
fn a_commit_request_with_a_joined_outstanding() {
    let mut one = site(3, 1);
    one.begin(HOUSE).unwrap();
    one.enlist(T, 2, &mut buffer()).unwrap();
    one.enlist(T, 3, &mut buffer()).unwrap();
    let mut full = message(2, 2, 1, T);
    full[7] = 12;
    take(&mut one, &full);
    refused(&one, FULL, 7, |site, out| site.commit(T, out));
}

#[test]
fn a_read_or_write_past_a_forgotten_install() {
    let mut one = site(1, 1);
    one.begin(HOUSE).unwrap();
    one.write(T, 3, bare(30)).unwrap();
    one.read(T, 4).unwrap();
    for install in 0..33 {
        assert_eq!(one.read(T, 4), Ok(bare(0)), "after {install} installs");
        let other = one.begin(HOUSE).unwrap();
        one.commit(other, &mut buffer()).unwrap();
        one.install(&mut buffer()).unwrap();
    }
    refused(&one, 0, 8, |site, _| site.read(T, 4));
    refused(&one, 0, 8, |site, _| site.write(T, 4, bare(1)));
    assert_eq!(one.read(T, 3), Ok(bare(30)));
    assert_eq!(one.write(T, 3, bare(31)), Ok(()));
}

#[test]
fn a_write_to_a_key_held_by_another() {
    let mut one = begun();
    let other = one.begin(HOUSE).unwrap();
    one.write(T, 7, bare(70)).unwrap();
    refused(&one, 0, 9, |site, _| site.write(other, 7, bare(1)));
    one.commit(T, &mut buffer()).unwrap();
    refused(&one, 0, 9, |site, _| site.write(other, 7, bare(1)));
    one.install(&mut buffer()).unwrap();
    refused(&one, 0, 10, |site, _| site.write(other, 7, bare(1)));
    assert_eq!(one.read(other, 7), Ok(bare(0)));
}

#[test]
fn a_seventeenth_live_part_or_a_spent_serial() {
    let mut one = site(1, 1);
    one.serial = LAST_SERIAL - 16;
    for _ in 0..16 {
        one.begin(HOUSE).unwrap();
    }
    refused(&one, 0, 12, |site, _| site.begin(HOUSE));
    one.live.pop();
    refused(&one, 0, 13, |site, _| site.begin(HOUSE));
}

#[test]
fn a_count_that_would_pass_its_end() {
    let mut one = begun();
    one.sent[1] = u64::MAX;
    refused(&one, FULL, 13, |site, out| site.enlist(T, 2, out));
    assert!(one.clone().commit(T, &mut buffer()).is_ok(), "a lone save sends nothing");
    (one.live[0].participants, one.live[0].heard) = (3, 2);
    refused(&one, FULL, 13, |site, out| site.commit(T, out));
    refused(&one, FULL, 13, |site, out| site.abandon(T, out));
    let mut two = site(2, 2);
    two.sent[0] = u64::MAX;
    refused(&two, FULL, 13, |site, out| site.message(&message(1, 1, 2, T), out));
    let mut prepare = message(3, 1, 2, T);
    (prepare[6], prepare[7]) = (40, 3);
    refused(&two, FULL, 13, |site, out| site.message(&prepare, out));
    assert!(two.message(&message(8, 1, 2, T), &mut buffer()).is_ok());
    let mut three = site(1, 1);
    three.installs = u64::MAX;
    refused(&three, 57, 17, |site, out| site.install(out));
    three.live.push(queued(T, Stage::Decided { number: 1 }));
    refused(&three, 57, 13, |site, out| site.install(out));
}

#[test]
fn records_that_do_not_ascend() {
    let mut merger = merger(2);
    merger.merge(&[9, 2, 1, 4, 0, 0, 0, 0, 0]).unwrap();
    merger.merge(&[9, 1, 1, 5, 1, T, 1, 0, 0]).unwrap();
    let before = merger.clone();
    for record in
        [[9, 1, 1, 5, 1, T, 1, 0, 0], [9, 1, 1, 4, 1, T, 1, 0, 0], [9, 2, 1, 3, 0, 0, 0, 0, 0]]
    {
        assert_eq!(merger.merge(&record).unwrap_err().number(), 14, "{record:?}");
    }
    assert_eq!(merger.merge(&[9, 2, 1, 4, 0, 0, 0, 0, 0]), Ok(()));
    assert_eq!(merger, before);
    let mut copy = Copy::start();
    let merged = [12, 3, 0, 5, 1, T, 1, 1, 9, 6, 66, 7];
    copy.replay(&merged).unwrap();
    let before = copy.clone();
    assert_eq!(copy.replay(&merged).unwrap_err().number(), 14);
    assert_eq!(copy, before);
}

#[test]
fn a_seventeenth_queued_part() {
    let mut merger = merger(2);
    for number in 1..=16 {
        merger.merge(&[9, 1, 1, number, 1, T + number, 1, 0, 0]).unwrap();
    }
    let before = merger.clone();
    assert_eq!(merger.merge(&[9, 1, 1, 17, 1, T, 1, 0, 0]).unwrap_err().number(), 15);
    assert_eq!(merger.merge(&[9, 1, 1, 16, 1, T, 1, 0, 0]).unwrap_err().number(), 14);
    assert_eq!(merger, before);
    assert_eq!(merger.merge(&[9, 2, 1, 16, 0, 0, 0, 0, 0]), Ok(()));
}

#[test]
fn a_due_record_whose_parts_lack_or_disagree() {
    let mut lacking = merger(2);
    lacking.merge(&[9, 1, 1, 5, 1, T, 3, 0, 0]).unwrap();
    assert_eq!(lacking.emit(&mut buffer()).unwrap_err().number(), 17);
    lacking.merge(&[9, 2, 2, 5, 0, 0, 0, 0, 0]).unwrap();
    let before = lacking.clone();
    assert_eq!(lacking.emit(&mut buffer()).unwrap_err().number(), 16);
    assert_eq!(lacking, before);
    for other in [[9, 1, 2, 5, 1, T + 1, 3, 0, 0], [9, 1, 2, 5, 1, T, 2, 0, 0]] {
        let mut merger = merger(2);
        merger.merge(&[9, 1, 1, 5, 1, T, 3, 0, 0]).unwrap();
        merger.merge(&other).unwrap();
        assert_eq!(merger.emit(&mut buffer()).unwrap_err().number(), 16);
    }
}

#[test]
fn nothing_to_install_or_emit() {
    refused(&begun(), 57, 17, |site, out| site.install(out));
    assert_eq!(merger(3).emit(&mut buffer()).unwrap_err().number(), 17);
}
