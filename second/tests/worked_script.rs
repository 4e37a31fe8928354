//! The worked script (H2), and how the program reads its lines.

mod common;

use common::play;
use second::house::House;

const SCRIPT: &str = "sites 1\nbegin 1\nwrite 1 4294967297 5 700 0\ncommit 4294967297\nmerge 1\n\
                      install 1\nmerge 1\nemit\nreplay 1\nvalue 1 5";

const OUTPUT: &str = "1 ok\n2 ok 4294967297\n3 ok\n4 ok 1\n5 refused 17\n6 ok 1 1\n7 ok\n\
                      8 ok 1 1 4294967297\n9 ok 1 1\n10 ok 700 0 1 1\n";

fn output(script: &str, without_copies: bool) -> String {
    let mut house = House::new(());
    house.without_copies = without_copies;
    let mut text = String::new();
    for line in script.split('\n') {
        let _ = house.line(line.as_bytes(), &mut text);
    }
    text
}

#[test]
fn the_worked_script_prints_its_ten_lines() {
    assert_eq!(output(SCRIPT, false), OUTPUT);
}

#[test]
fn without_copies_replay_and_value_are_refused() {
    let last = output(SCRIPT, true);
    assert!(last.ends_with("9 refused 2\n10 refused 2\n"), "{last}");
}

#[test]
fn other_lines_are_refused_2_and_counted() {
    play(
        "begin 1 => refused 2
         sites 0 => refused 2
         sites 9 => refused 2
         sites 2 => ok
         sites 2 => refused 2
         begin => refused 2
         begin 1 2 => refused 2
         begin 1 0 0 => refused 2
         begin  1 => refused 2
         Begin 1 => refused 2
         begin +1 => refused 2
         begin 18446744073709551617 => refused 2
         begin 3 => refused 2
         begin 002 => ok 8589934593
         replay 0 => refused 2
         replay 9 => refused 2
         value 9 0 => refused 2
         value 8 2048 => refused 2
         value 8 2047 => ok 0 0 0 0
         take 1 3 => refused 2
         take 1 1 => refused 17
         take 1 2 => refused 17
         merge 3 => refused 2
         report 2 => ok 0
         emit => refused 17
         emit 1 => refused 2",
    );
    let bytes: [&[u8]; 5] = [b"", b" ", b"sites 1\r", b"sites 1 ", b"sites \xff"];
    let mut house = House::new(());
    for line in bytes {
        assert_eq!(house.line(line, &mut String::new()).unwrap_err().number(), 2);
    }
}

#[test]
fn calls_go_to_the_coordinator_of_their_number() {
    play(
        "sites 2
         begin 2 => ok 8589934593
         enlist 8589934593 3 => refused 2
         enlist 12884901889 3 => refused 2
         enlist 12884901889 1 => refused 5
         enlist 8589934593 2 => refused 27
         enlist 8589934593 1
         commit 8589934593 => refused 7
         take 2 1
         write 1 8589934593 7 77 0
         take 1 2
         commit 0 => refused 5
         commit 8589934593
         take 2 1
         take 1 2
         take 2 1
         take 1 2 => ok 1
         abandon 8589934593 => refused 27
         take 2 1
         install 1 => ok 1 2
         install 2 => ok 1 2
         abandon 8589934593 => refused 5
         report 1 => ok 1
         merge 1
         merge 2
         emit => ok 1 2 8589934593
         merge 1
         replay 3 => ok 1 2
         value 3 7 => ok 77 0 1 2
         value 4 7 => ok 0 0 0 0",
    );
}

#[test]
fn a_refused_record_stays_the_next_one() {
    let mut script = String::from("sites 2\n");
    for serial in 1..=17 {
        let transaction = (1u64 << 32) + serial;
        script += &format!("begin 1 => ok {transaction}\ncommit {transaction} => ok {serial}\n");
        script += &format!("install 1 => ok {serial} 1\n");
    }
    script += &"merge 1\n".repeat(16);
    script += "merge 1 => refused 15\nmerge 1 => refused 15\nreport 2 => ok 0\nmerge 2\n";
    script += "emit => refused 17\nmerge 1 => refused 15\n";
    // A save that spans both sites raises the other's clock.
    script += "begin 2 => ok 8589934593\nenlist 8589934593 1\ntake 2 1\ntake 1 2\n";
    script += "commit 8589934593\ntake 2 1\ntake 1 2\ntake 2 1\ntake 1 2 => ok 18\n";
    script += "install 2 => ok 18 2\nmerge 2\nemit => ok 1 1 4294967297\n";
    script += "merge 1\nemit => ok 2 1 4294967298\n";
    play(&script);
}
