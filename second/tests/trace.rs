//! `second-house --trace`: what each line took or wrote stands behind its output.

use std::io::Write;
use std::process::{Command, Stdio};

use second::house::House;
use second::trace::{self, Told};

const FIRST: &str = "
    sites 1 => 1 ok
    begin 1 => 2 ok 4294967297
    write 1 4294967297 5 700 0 => 3 ok
    commit 4294967297 => 4 ok 1
    merge 1 => 5 refused 17
    install 1 => 6 ok 1 1 ; part site 1 pair 1 1 transaction 4294967297 participants 1 writes 1: 5 = 700 0
    merge 1 => 7 ok ; part site 1 pair 1 1 transaction 4294967297 participants 1 writes 1: 5 = 700 0
    emit => 8 ok 1 1 4294967297 ; merged pair 1 1 transaction 4294967297 participants 1 writes 1: 5 = 700 0
    replay 1 => 9 ok 1 1 ; merged pair 1 1 transaction 4294967297 participants 1 writes 1: 5 = 700 0
    value 1 5 => 10 ok 700 0 1 1";

/// The second transaction saw the first at site 1 and missed it at site 2.
const SAW_HALF: &str = "
    sites 2 => 1 ok
    begin 1 => 2 ok 4294967297
    enlist 4294967297 2 => 3 ok
    take 1 2 => 4 ok ; JOIN from 1 to 2 channel 1 transaction 4294967297 argument 0
    take 2 1 => 5 ok ; JOINED from 2 to 1 channel 1 transaction 4294967297 argument 0
    write 1 4294967297 5 700 12 => 6 ok
    write 2 4294967297 261 900 3 => 7 ok
    commit 4294967297 => 8 ok
    take 1 2 => 9 ok ; PREPARE from 1 to 2 channel 2 transaction 4294967297 clock 0 argument 3
    take 2 1 => 10 ok ; CONC from 2 to 1 channel 2 transaction 4294967297 entries 0
    take 1 2 => 11 ok ; CERT from 1 to 2 channel 3 transaction 4294967297 entries 0
    take 2 1 => 12 ok 1 ; VOTE from 2 to 1 channel 3 transaction 4294967297 clock 0 argument 0
    begin 2 => 13 ok 8589934593
    install 1 => 14 ok 1 1 ; part site 1 pair 1 1 transaction 4294967297 participants 3 writes 1: 5 = 700 12
    enlist 8589934593 1 => 15 ok
    take 2 1 => 16 ok ; JOIN from 2 to 1 channel 4 transaction 8589934593 argument 0
    take 1 2 => 17 ok ; COMMIT from 1 to 2 channel 4 transaction 4294967297 clock 1
    take 1 2 => 18 ok ; JOINED from 1 to 2 channel 5 transaction 8589934593 argument 0
    read 1 8589934593 5 => 19 ok 700 12
    read 2 8589934593 261 => 20 ok 0 0
    report 2 => 21 ok 0 ; state site 2 number 0
    install 2 => 22 ok 1 1 ; part site 2 pair 1 1 transaction 4294967297 participants 3 writes 1: 261 = 900 3
    commit 8589934593 => 23 ok
    take 2 1 => 24 ok ; PREPARE from 2 to 1 channel 5 transaction 8589934593 clock 1 argument 3
    take 1 2 => 25 ok ; CONC from 1 to 2 channel 6 transaction 8589934593 entries 0
    take 2 1 => 26 ok ; CERT from 2 to 1 channel 6 transaction 8589934593 entries 1: 4294967297 participants 3 mark 1
    take 1 2 => 27 ok abort 18 ; VOTE from 1 to 2 channel 7 transaction 8589934593 clock 1 argument 18
    take 2 1 => 28 ok ; ABORT from 2 to 1 channel 7 transaction 8589934593
    take 2 1 => 29 refused 17
    merge 2 => 30 ok ; state site 2 number 0
    merge 1 => 31 ok ; part site 1 pair 1 1 transaction 4294967297 participants 3 writes 1: 5 = 700 12
    merge 2 => 32 ok ; part site 2 pair 1 1 transaction 4294967297 participants 3 writes 1: 261 = 900 3
    emit => 33 ok 1 1 4294967297 ; merged pair 1 1 transaction 4294967297 participants 3 writes 2: 5 = 700 12, 261 = 900 3
    replay 1 => 34 ok 1 1 ; merged pair 1 1 transaction 4294967297 participants 3 writes 2: 5 = 700 12, 261 = 900 3";

/// Lines and outputs of a text in which they stand beside one another.
fn pairs(text: &str) -> Vec<(&str, &str)> {
    text.trim().lines().map(|line| line.trim().split_once(" => ").unwrap()).collect()
}

fn traced(text: &str) {
    let mut house = House::new(Told::default());
    for (line, due) in pairs(text) {
        let mut said = String::new();
        trace::line(&mut house, line.as_bytes(), &mut said);
        assert_eq!(said, format!("{due}\n"), "at `{line}`");
    }
}

/// What the program says to the lines.
fn program(flags: &[&str], text: &str) -> String {
    let mut program = Command::new(env!("CARGO_BIN_EXE_second-house"))
        .args(flags)
        .stdin(Stdio::piped())
        .stdout(Stdio::piped())
        .spawn()
        .unwrap();
    let script: String = pairs(text).iter().map(|(line, _)| format!("{line}\n")).collect();
    program.stdin.take().unwrap().write_all(script.as_bytes()).unwrap();
    String::from_utf8(program.wait_with_output().unwrap().stdout).unwrap()
}

#[test]
fn the_worked_script_shows_its_records() {
    traced(FIRST);
}

#[test]
fn a_script_of_two_sites_shows_all_eight_kinds() {
    traced(SAW_HALF);
}

#[test]
fn a_record_of_many_writes_shows_the_first_four() {
    traced(
        "sites 1 => 1 ok
         begin 1 => 2 ok 4294967297
         write 1 4294967297 1 1 9 => 3 ok
         write 1 4294967297 2 2 8 => 4 ok
         write 1 4294967297 3 3 7 => 5 ok
         write 1 4294967297 4 4 6 => 6 ok
         write 1 4294967297 5 5 0 => 7 ok
         commit 4294967297 => 8 ok 1
         install 1 => 9 ok 1 1 ; part site 1 pair 1 1 transaction 4294967297 participants 1 \
         writes 5: 1 = 1 9, 2 = 2 8, 3 = 3 7, 4 = 4 6, ..",
    );
}

#[test]
fn a_join_shows_its_desk() {
    traced(
        "sites 2 => 1 ok
         begin 1 1 => 2 ok 4294967297
         enlist 4294967297 2 => 3 ok
         take 1 2 => 4 ok ; JOIN from 1 to 2 channel 1 transaction 4294967297 argument 1
         begin 1 2 => 5 refused 2",
    );
}

#[test]
fn only_the_flag_shows_more_than_the_outcome() {
    let whole: String = pairs(SAW_HALF).iter().map(|(_, due)| format!("{due}\n")).collect();
    let bare: String = whole
        .lines()
        .map(|line| format!("{}\n", line.split_once(" ; ").map_or(line, |(outcome, _)| outcome)))
        .collect();
    assert_eq!(program(&["--trace"], SAW_HALF), whole);
    assert_eq!(program(&[], SAW_HALF), bare);
}
