//! Lines that are none: other verbs, other counts of words, numbers and byte strings that are
//! none or out of range, lines that are too long. Remarks and odd forms of good lines stand
//! among them.

use super::Maker;
use crate::room::line::{MOST_BYTES, MOST_RECORD};

const LINES: [&str; 58] = [
    "",
    "#",
    "# start",
    "#start",
    " # start",
    " ",
    "  ",
    "-",
    "0",
    "stop",
    "Start",
    "START",
    "star",
    "starts",
    " start",
    "start ",
    "start 0",
    "start\r",
    "start\t",
    "start\0",
    "\0",
    "sum",
    "sums 1",
    "Sums",
    "replay",
    "replay ",
    "replay  -",
    "replay - ",
    "replay --",
    "replay 0",
    "replay 0g",
    "replay g0",
    "replay 00 00",
    "replay 0x00",
    "replay -00",
    "value",
    "value ",
    "value -1",
    "value +1",
    "value 1.0",
    "value 0x1",
    "value 1 ",
    "value  1",
    "value 1 2",
    "value\t1",
    "value 18446744073709551616",
    "value 99999999999999999999999",
    "value 0018446744073709551615",
    "copy 32801",
    "copy 18446744073709551615",
    "copy -",
    "answer 97",
    "answer",
    "shift 16",
    "shift",
    "word 4098 0",
    "word 0",
    "word 4097 18446744073709551616",
];

impl Maker {
    pub(super) fn bad_line(&mut self) {
        match self.random.below(20) {
            0 => {
                // Zeros before a number make a line as long as it may be, or a byte longer.
                let bytes = MOST_BYTES + self.random.below(2) as usize;
                let number = self.random.below(5_000).to_string();
                self.say(format!("value {number:0>width$}", width = bytes - "value ".len()));
            }
            1 => {
                let bytes = MOST_RECORD - 1 + self.random.below(3) as usize;
                let record = vec![self.random.word() as u8; bytes];
                self.replay(&record);
            }
            2 => self.changed(),
            _ => {
                let line = LINES[self.random.below(LINES.len() as u64) as usize];
                self.say(line);
            }
        }
    }

    /// A good line with one byte changed, and the lengths lent as they were.
    fn changed(&mut self) {
        let key = self.key();
        let good = ["start", "replay 00", "copy 32784", "answer 32", "word 7 9", "sums"];
        let mut line = match self.random.pick(&good) {
            Some(line) if self.random.chance(60) => line.as_bytes().to_vec(),
            _ => format!("value {key}").into_bytes(),
        };
        let place = self.random.below(line.len() as u64) as usize;
        line[place] = match self.random.word() as u8 {
            b'\n' => b' ',
            byte => byte,
        };
        let lent = [("copy", self.room.copy_bytes), ("answer", self.room.answer_bytes)];
        self.say(line);
        let now = [self.room.copy_bytes, self.room.answer_bytes];
        for ((verb, before), now) in lent.into_iter().zip(now) {
            if before != now {
                self.say(format!("{verb} {before}"));
            }
        }
    }
}
