//! Two desks: what a transaction for the proofing desk must not write, and what no
//! desk is (Q10.1 to Q10.7).

mod common;

use common::probed::House;
use common::stages::*;
use common::*;
use second::desk::{Desk, DESKS};
use second::message::Message;
use second::site::Site;
use second::sizes::*;

const FULL: usize = SEND_BUFFER;

/// Numbers that are no desk.
const NO_DESKS: [u64; 5] = [2, 3, 12, 1 << 32, u64::MAX];

/// Site 1 of three with T for a desk.
fn begun(desk: Desk) -> Site {
    let mut one = site(3, 1);
    assert_eq!(one.begin(desk.number()), Ok(T));
    one
}

/// Site 2 of three with the part of T that a JOIN for a desk began.
fn joined(desk: Desk) -> Site {
    let mut two = site(3, 2);
    take(&mut two, &to_two(1, 1, 0, desk.number()));
    two
}

/// The coordinator and a participant of T, each with the first key of its site.
fn parts(desk: Desk) -> [(Site, u64); 2] {
    [(begun(desk), 0), (joined(desk), 256)]
}

/// Writes so many keys, from the last to the first.
fn write_keys(site: &mut Site, first: u64, count: usize) {
    for key in (first..first + count as u64).rev() {
        assert_eq!(site.write(T, key, bare(1)), Ok(()), "{key}");
    }
}

#[test]
fn no_fifth_key_is_written_for_the_proofing_desk_and_no_seventeenth_for_the_house() {
    for (desk, limit) in [(Desk::Proofing, 4), (Desk::House, 16)] {
        for (mut site, first) in parts(desk) {
            write_keys(&mut site, first, limit);
            for key in first + limit as u64..first + 256 {
                refused(&site, 0, 11, |site, _| site.write(T, key, bare(2)));
            }
        }
    }
}

#[test]
fn rewriting_the_four_makes_no_room_for_a_fifth() {
    for (mut site, first) in parts(Desk::Proofing) {
        write_keys(&mut site, first, 4);
        for round in 0..5 {
            for key in first..first + 4 {
                assert_eq!(site.write(T, key, bare(round)), Ok(()));
                assert_eq!(site.read(T, key), Ok(bare(round)));
                refused(&site, 0, 11, |site, _| site.write(T, first + 4 + round, bare(2)));
            }
        }
        assert!(site.live[0].footprint.reads.is_empty(), "an own write read enters no set");
    }
}

#[test]
fn each_site_counts_its_own_four() {
    let (mut one, mut two) = (begun(Desk::Proofing), joined(Desk::Proofing));
    write_keys(&mut one, 0, 4);
    write_keys(&mut two, 256, 4);
    refused(&one, 0, 11, |site, _| site.write(T, 4, bare(2)));
    refused(&two, 0, 11, |site, _| site.write(T, 260, bare(2)));
    refused(&two, 0, 3, |site, _| site.write(T, 3, bare(2)));
}

#[test]
fn no_desk_limits_reads_below_sixteen() {
    for (mut site, first) in DESKS.into_iter().flat_map(parts) {
        write_keys(&mut site, first, 4);
        for key in first + 4..first + 20 {
            assert_eq!(site.read(T, key), Ok(bare(0)), "{key}");
        }
        refused(&site, 0, 11, |site, _| site.read(T, first + 20));
        for key in first..first + 20 {
            assert!(site.read(T, key).is_ok(), "a known key");
        }
        assert_eq!(site.live[0].footprint.reads.len(), 16);
    }
}

/// Keys already read do not count as written.
#[test]
fn four_keys_are_written_whatever_was_read() {
    for (mut site, first) in parts(Desk::Proofing) {
        for key in first..first + 16 {
            site.read(T, key).unwrap();
        }
        write_keys(&mut site, first + 6, 4);
        refused(&site, 0, 11, |site, _| site.write(T, first, bare(1)));
        refused(&site, 0, 11, |site, _| site.write(T, first + 16, bare(1)));
    }
}

#[test]
fn other_causes_go_before_the_fifth_key() {
    let mut one = begun(Desk::Proofing);
    write_keys(&mut one, 0, 4);
    let other = one.begin(HOUSE).unwrap();
    one.write(other, 4, bare(1)).unwrap();
    refused(&one, 0, 9, |site, _| site.write(T, 4, bare(2)));
    one.commit(other, &mut buffer()).unwrap();
    one.install(&mut buffer()).unwrap();
    refused(&one, 0, 10, |site, _| site.write(T, 4, bare(2)));
    for _ in 0..HISTORY {
        let other = one.begin(PROOFING).unwrap();
        one.commit(other, &mut buffer()).unwrap();
        one.install(&mut buffer()).unwrap();
    }
    refused(&one, 0, 8, |site, _| site.write(T, 9, bare(2)));
    assert_eq!(one.write(T, 3, bare(9)), Ok(()), "a known key meets none of 8 to 11");
    one.live[0].snapshot = one.installs;
    refused(&one, 0, 11, |site, _| site.write(T, 9, bare(2)));
    one.commit(T, &mut buffer()).unwrap();
    refused(&one, 0, 27, |site, _| site.write(T, 9, bare(2)));
}

#[test]
fn no_part_takes_the_desk_of_another() {
    let mut one = begun(Desk::Proofing);
    let house = one.begin(HOUSE).unwrap();
    write_keys(&mut one, 0, 4);
    for key in 100..116 {
        one.write(house, key, bare(1)).unwrap();
    }
    refused(&one, 0, 11, |site, _| site.write(T, 4, bare(1)));
    refused(&one, 0, 11, |site, _| site.write(house, 116, bare(1)));
    // The place of the first is free again, for the other desk.
    one.abandon(T, &mut buffer()).unwrap();
    let next = one.begin(HOUSE).unwrap();
    for key in 0..16 {
        one.write(next, key, bare(1)).unwrap();
    }
    refused(&one, 0, 11, |site, _| site.write(next, 16, bare(1)));
}

#[test]
fn join_says_the_desk_and_no_other_message_does() {
    for desk in DESKS {
        let (mut one, mut two) = (begun(desk), site(3, 2));
        let (_, join) = sent(&mut one, |site, out| site.enlist(T, 2, out));
        assert_eq!(join, [[10, 1, 1, 2, 1, T, 0, desk.number(), 0, 0]]);
        let (_, replied) = take(&mut two, &join[0]);
        assert_eq!(replied, [[10, 2, 2, 1, 1, T, 0, 0, 0, 0]]);
        take(&mut one, &replied[0]);
        let (_, prepare) = sent(&mut one, |site, out| site.commit(T, out));
        assert_eq!(prepare, [[10, 3, 1, 2, 2, T, 0, 3, 0, 0]]);
        let (_, conc) = take(&mut two, &prepare[0]);
        let (_, cert) = take(&mut one, &conc[0]);
        let (_, vote) = take(&mut two, &cert[0]);
        let (_, commit) = take(&mut one, &vote[0]);
        take(&mut two, &commit[0]);
        assert_eq!([conc[0][7], cert[0][7], vote[0][7], commit[0][7]], [0; 4]);
        assert_eq!([&one, &two].map(|site| site.live[0].desk), [desk; 2], "the part keeps it");
    }
}

#[test]
fn a_full_site_answers_a_join_for_either_desk_with_12() {
    for desk in DESKS {
        let mut two = site(3, 2);
        for _ in 0..LIVE {
            two.begin(PROOFING).unwrap();
        }
        let (_, replied) = take(&mut two, &to_two(1, 1, 0, desk.number()));
        assert_eq!((replied[0][7], two.live.len()), (12, LIVE));
    }
}

#[test]
fn a_join_for_no_desk_is_refused_before_all_else() {
    for argument in NO_DESKS {
        let join = to_two(1, 1, 0, argument);
        assert!(Message::parse(&join, 3).is_err());
        refused(&site(3, 2), FULL - 1, 1, |site, out| site.message(&join, out));
        // 3, 4, 27 and 13 would apply as well.
        refused(&site(3, 3), FULL, 2, |site, out| site.message(&join, out));
        refused(&site(3, 2), FULL, 2, |site, out| site.message(&to_two(9, 1, 0, argument), out));
        let next = to_two(2, 1, 0, argument);
        refused(&joined(Desk::Proofing), FULL, 2, |site, out| site.message(&next, out));
        refused(&spent(&site(3, 2)), FULL, 2, |site, out| site.message(&join, out));
    }
    for desk in DESKS {
        let again = to_two(2, 1, 0, desk.number());
        refused(&joined(Desk::House), FULL, 27, |site, out| site.message(&again, out));
    }
}

#[test]
fn a_begin_for_no_desk_is_refused_2_before_12_and_13() {
    let (mut full, mut last) = (site(1, 1), site(1, 1));
    for _ in 0..LIVE {
        full.begin(PROOFING).unwrap();
    }
    last.serial = LAST_SERIAL;
    let both = Site { serial: LAST_SERIAL, ..full.clone() };
    for desk in NO_DESKS {
        for one in [&site(1, 1), &full, &last, &both] {
            refused(one, 0, 2, |site, _| site.begin(desk));
        }
    }
    for desk in [HOUSE, PROOFING] {
        refused(&full, 0, 12, |site, _| site.begin(desk));
        refused(&both, 0, 12, |site, _| site.begin(desk));
        refused(&last, 0, 13, |site, _| site.begin(desk));
    }
}

#[test]
fn neither_history_nor_record_tells_the_desk() {
    let installs = DESKS.map(|desk| {
        let mut one = begun(desk);
        write_keys(&mut one, 0, 4);
        one.read(T, 9).unwrap();
        one.commit(T, &mut buffer()).unwrap();
        let mut record = vec![7; 57];
        one.install(&mut record).unwrap();
        (one, record)
    });
    assert_eq!(installs[0], installs[1]);
}

/// Calls at site 1 that a possible state does not refuse 2, and what they answer.
fn at_site_1(house: &mut House) -> Vec<String> {
    house.say("head 8 2 1 1");
    house.say(&format!("word 5 {}", (2u64 << 32) + 9));
    let lines = [
        format!("read 1 {T} 0"),
        format!("write 1 {T} 0 9 0"),
        format!("enlist 1 {T} 1"),
        "search 1 0 0".to_string(),
        "message 1".to_string(),
        "install 1".to_string(),
        "report 1".to_string(),
        "begin 1 1".to_string(),
        "abandon 1 7".to_string(),
        "commit 1 7".to_string(),
    ];
    lines.iter().map(|line| house.say(line).to_string()).collect()
}

fn is_stopped(house: &mut House) -> bool {
    let (answers, same) = (at_site_1(house), house.left.clone());
    let refused = answers.iter().filter(|answer| *answer == "refused 2").count();
    assert!(refused == 0 || refused == answers.len(), "{answers:?}");
    assert!(refused == 0 || same.ends_with(" 1 0"), "a refused call altered the site");
    refused > 0
}

/// A house of two in which T at site 1 has written so many keys for a desk.
fn written(desk: Desk, count: u64) -> House {
    let mut house = House::after(2, &[&format!("begin 1 {}", desk.number())]);
    for key in 0..count {
        assert_eq!(house.say(&format!("write 1 {T} {key} 1 0")), "ok");
    }
    house
}

#[test]
fn no_handed_part_has_another_desk() {
    for desk in NO_DESKS {
        let mut house = written(Desk::House, 2);
        house.say(&format!("live 1 {T} 10 {desk}"));
        assert!(is_stopped(&mut house), "{desk}");
        house.say("room 7965");
        assert_eq!(house.say(&format!("commit 1 {T}")), "refused 1");
        house.say("room 7966");
        house.say(&format!("live 1 {T} 10 1"));
        assert!(!is_stopped(&mut house));
    }
}

#[test]
fn no_handed_part_has_more_writes_than_its_desk_allows() {
    for (desk, most) in [(Desk::Proofing, 4), (Desk::House, 16)] {
        for past in [most + 1, 17, 18, u64::MAX] {
            let mut house = written(desk, most);
            assert!(!is_stopped(&mut house));
            house.say(&format!("live 1 {T} 9 {past}"));
            assert!(is_stopped(&mut house), "{past} for {desk:?}");
            house.say(&format!("live 1 {T} 9 {most}"));
            assert!(!is_stopped(&mut house));
        }
    }
}

#[test]
fn a_part_that_wrote_five_keys_is_not_one_for_proofing() {
    for (count, stops) in [(0, false), (4, false), (5, true), (16, true)] {
        let mut house = written(Desk::House, count);
        house.say(&format!("live 1 {T} 10 1"));
        assert_eq!(is_stopped(&mut house), stops, "{count} keys");
        house.say(&format!("live 1 {T} 10 0"));
        assert!(!is_stopped(&mut house));
    }
    // A part that became one for proofing has its limit, and the other way round.
    let mut house = written(Desk::House, 4);
    house.say(&format!("live 1 {T} 10 1"));
    assert_eq!(house.say(&format!("write 1 {T} 9 1 0")), "refused 11");
    house.say(&format!("live 1 {T} 10 0"));
    assert_eq!(house.say(&format!("write 1 {T} 9 1 0")), "ok");
}

#[test]
fn a_free_place_is_asked_for_its_desk_and_its_writes() {
    let stops = |desk: Desk, count: u64, poke: &str| {
        let mut house = written(desk, count);
        house.say(&format!("live 1 {T} {poke}"));
        house.say(&format!("live 1 {T} 2 0"));
        assert_eq!(house.say(&format!("live 1 {T} 10 0")), "refused 5");
        is_stopped(&mut house)
    };
    assert!(stops(Desk::House, 2, "10 2"));
    assert!(stops(Desk::House, 5, "10 1"));
    assert!(stops(Desk::Proofing, 4, "9 5"));
    assert!(!stops(Desk::Proofing, 4, "10 0"));
    assert!(!stops(Desk::House, 4, "10 1"));
    assert!(!stops(Desk::House, 16, "9 16"));
}

#[test]
fn the_checksum_of_a_site_tells_the_desks_of_its_parts_apart() {
    let left = ["begin 1", "begin 1 0", "begin 1 1"].map(|line| House::after(2, &[line]).left);
    assert_eq!(left[0], left[1]);
    assert_ne!(left[0], left[2]);
}

#[test]
fn a_line_without_a_desk_begins_for_the_house() {
    let writes = |transaction: u64, count: u64| -> String {
        let lines = (0..count).map(|key| format!("write 1 {transaction} {key} 1 0\n"));
        lines.chain([format!("write 1 {transaction} {count} 1 0 => refused 11\n")]).collect()
    };
    for (line, count) in [("begin 1", 16), ("begin 1 0", 16), ("begin 1 1", 4), ("begin 1 01", 4)] {
        play(&format!("sites 1\n{line} => ok {T}\n{}", writes(T, count)));
    }
    play(
        "begin 1 1 => refused 2
         sites 1
         begin 1 2 => refused 2
         begin 1 18446744073709551615 => refused 2
         begin 1 18446744073709551616 => refused 2
         begin 1 0 0 => refused 2
         begin 1 x => refused 2
         begin 1  1 => refused 2
         begin => refused 2
         begin 2 1 => refused 2
         begin 1 1 => ok 4294967297",
    );
}
