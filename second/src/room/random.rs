//! Random scripts of a reading room: mostly records that ascend and are taken; repeats,
//! damaged records, buffers lent at other lengths, shifts, words set in the copy, and lines
//! that are none. The room is run beside, so that the copy's pair is known.

mod damage;
mod noise;
mod records;

use super::Room;
use crate::answer::Pair;
use crate::random::Random;
use crate::reader::{ANSWER_BYTES, COPY_BYTES, WORD_BYTES};
use crate::sizes::*;

use super::line::{MOST_ANSWER, MOST_COPY, MOST_SHIFT};

//                 taken again damaged value copy answer shift word start bad
const STEPS: [u64; 10] = [58, 6, 16, 10, 2, 2, 1, 3, 1, 2];
const COORDINATORS: u64 = SITES as u64;

struct Maker {
    random: Random,
    room: Room,
    script: Vec<u8>,
    /// Lines that may still be said.
    left: u64,
    /// The record and the keys that were written last.
    record: Vec<u8>,
    keys: Vec<u64>,
}

/// So many lines of the script of a seed and a place; fewer lines are its beginning.
pub fn script(seed: u64, lines: u64, first: u64) -> Vec<u8> {
    let base = Random::new(seed).word();
    let mut maker = Maker {
        random: Random::new(base.wrapping_add(first)),
        room: Room::default(),
        script: Vec::new(),
        left: lines,
        record: vec![],
        keys: vec![0],
    };
    maker.say("sums");
    maker.say("start");
    while maker.left > 0 {
        maker.step();
    }
    maker.script
}

impl Maker {
    /// Writes a line and obeys it, unless there are enough.
    fn say(&mut self, line: impl AsRef<[u8]>) {
        if self.left == 0 {
            return;
        }
        self.left -= 1;
        self.script.extend_from_slice(line.as_ref());
        self.script.push(b'\n');
        // The sums do not bear on what comes.
        if line.as_ref() != b"sums" {
            self.room.line(line.as_ref(), &mut String::new());
        }
    }

    fn step(&mut self) {
        match self.random.weighted(&STEPS) {
            0 => self.taken(),
            1 => self.again(),
            2 => self.damaged(),
            3 => self.value(),
            4 => self.lent("copy", COPY_BYTES),
            5 => self.lent("answer", ANSWER_BYTES),
            6 => self.shift(),
            7 => self.word(),
            8 => self.say("start"),
            _ => self.bad_line(),
        }
    }

    /// Replays the bytes, in digits of either case.
    fn replay(&mut self, bytes: &[u8]) {
        let digits: &[u8; 16] = match self.random.chance(80) {
            true => b"0123456789abcdef",
            false => b"0123456789ABCDEF",
        };
        let mut line = b"replay ".to_vec();
        for byte in bytes {
            line.push(digits[usize::from(byte >> 4)]);
            line.push(digits[usize::from(byte & 15)]);
        }
        if bytes.is_empty() {
            line.push(b'-');
        }
        self.say(line);
    }

    /// A pair above the copy's last; a copy that stands near the end is started again.
    fn next_pair(&mut self) -> Pair {
        let [number, coordinator] = self.room.pair();
        let spent = number == u64::MAX && coordinator >= COORDINATORS;
        if spent || number > u64::MAX - 4 && self.random.chance(20) {
            self.say("start");
            return self.pair_above(0, 0);
        }
        self.pair_above(number, coordinator)
    }

    /// The pair that is given is not the last one of all.
    fn pair_above(&mut self, number: u64, coordinator: u64) -> Pair {
        let steps = match self.random.below(40) {
            0..=7 => 0,
            8..=32 => self.random.between(1, 3),
            33..=37 => self.random.any_width(),
            38 => (u64::MAX - number).saturating_sub(self.random.below(10)),
            _ => u64::MAX,
        };
        let next = number.saturating_add(steps);
        if next > number {
            return Pair::new(next, self.random.between(1, COORDINATORS));
        }
        match coordinator < COORDINATORS {
            true => Pair::new(number, self.random.between(coordinator + 1, COORDINATORS)),
            false => Pair::new(number + 1, self.random.between(1, COORDINATORS)),
        }
    }

    fn taken(&mut self) {
        let record = self.next_record();
        self.replay(&record);
        self.record = record;
    }

    /// The last record once more, or one of a pair that is not above the copy's.
    fn again(&mut self) {
        if self.random.chance(50) {
            let record = self.record.clone();
            return self.replay(&record);
        }
        let [number, coordinator] = self.room.pair();
        let below = match self.random.below(3) {
            0 => Pair::new(number, self.random.between(1, coordinator.clamp(1, COORDINATORS))),
            1 => {
                let less = number.saturating_sub(self.random.between(1, 3));
                Pair::new(less, self.random.between(1, COORDINATORS))
            }
            _ => Pair::new(self.random.any_width().min(number), 1),
        };
        let record = self.record_of(below);
        self.replay(&record);
    }

    /// A key around the bounds, one that was written last, or any.
    fn key(&mut self) -> u64 {
        match self.random.below(20) {
            0 => 0,
            1 => KEYS - 1,
            2 => KEYS,
            3 => u64::MAX,
            4 => self.random.between(KEYS - 2, KEYS + 2),
            5 => (1 << self.random.between(11, 63)) + self.random.below(KEYS),
            6 => self.random.any_width(),
            7..=10 => self.random.below(KEYS),
            _ => self.random.pick(&self.keys).unwrap_or_default(),
        }
    }

    fn value(&mut self) {
        let key = self.key();
        self.say(format!("value {key}"));
    }

    /// The copy or the answer at any length for a few lines, then at its own.
    fn lent(&mut self, verb: &str, whole: usize) {
        let (own, most) = (whole as u64, if verb == "copy" { MOST_COPY } else { MOST_ANSWER });
        let length = match self.random.below(8) {
            0 => 0,
            1 => self.random.below(2 * WORD_BYTES as u64 + 1),
            2 => own - WORD_BYTES as u64,
            3 => own + WORD_BYTES as u64,
            4 => self.random.below(most + 1),
            5 => most,
            _ => self.random.between(own - 9, own + 9),
        };
        self.say(format!("{verb} {length}"));
        for _ in 0..self.random.between(1, 3) {
            match self.random.below(8) {
                0 => self.say("start"),
                1..=2 => self.taken(),
                3 => self.damaged(),
                4 => self.word(),
                _ => self.value(),
            }
        }
        self.say(format!("{verb} {own}"));
    }

    /// Mostly the copy is started at once; else it is used as it is found.
    fn shift(&mut self) {
        let shift = self.random.between(0, MOST_SHIFT);
        self.say(format!("shift {shift}"));
        if self.random.chance(25) {
            self.value();
            self.taken();
            self.value();
        }
        self.say("start");
    }

    /// Sets a word of a value, or of the pair, and mostly reads or replays behind it.
    fn word(&mut self) {
        if self.random.chance(40) {
            let number = [u64::MAX, u64::MAX - 1, 0, self.random.any_width()];
            let coordinator = [0, 1, COORDINATORS - 1, COORDINATORS, COORDINATORS + 1, u64::MAX];
            let (place, word) = match self.random.chance(50) {
                true => (0, self.random.pick(&number)),
                false => (1, self.random.pick(&coordinator)),
            };
            self.say(format!("word {place} {}", word.unwrap_or_default()));
            return if self.random.chance(70) { self.taken() } else { self.again() };
        }
        let key = self.random.below(KEYS);
        let start = self.random.word();
        let value = match self.random.chance(50) {
            true => self.random.long_value(start),
            false => self.random.value(),
        };
        for (behind, word) in value.words().into_iter().enumerate() {
            let place = 2 * (key + 1) + behind as u64;
            self.say(format!("word {place} {word}"));
        }
        self.say(format!("value {key}"));
    }
}
