//! Random probes: calls in turn and out of turn, words forged, buffers shortened,
//! tables lent at other lengths, counters near their ends, states past the sizes,
//! fields poked, histories searched, both desks, tables of all kinds, values that do not
//! fit, bookmarks converted, records written to bytes. The house is run beside, so that the
//! lines lead into deep states.

mod bytes;
mod conversions;
mod desks;
mod pokes;
mod searches;
mod tables;
mod values;

use std::fmt::Write;

use super::lent::{BASE, LISTS, PLACES, SLOTS};
use super::line::parse;
use super::{sums, Probe};
use crate::random::Random;
use crate::sizes::*;
use crate::table::{even, Table};

//                    begin enl read wri com ab take inst rep merge emit repl val room ends past lent search fill table conv bytes
const SPANNING: [u64; 22] =
    [8, 10, 8, 14, 12, 1, 70, 18, 4, 14, 8, 8, 2, 2, 1, 2, 1, 8, 2, 2, 6, 4];
/// Few messages, many installs: history is forgotten.
const LONE: [u64; 22] = [30, 3, 8, 14, 40, 0, 30, 40, 2, 16, 12, 6, 1, 1, 1, 2, 1, 12, 2, 2, 6, 4];

struct Maker {
    random: Random,
    probe: Probe,
    text: String,
    lines: u64,
    /// The table that the house began with.
    table: Table,
    keys: u64,
    lone: bool,
    /// Percent of messages that are changed before they are handed in.
    forged: u64,
    /// Percent of messages that come in turn.
    order: u64,
    /// Percent of steps that poke a state.
    poked: u64,
    /// How many transaction numbers were planted.
    planted: u64,
    merged: Vec<u64>,
    replayed: Vec<u64>,
}

/// The probe of a seed, of about so many lines.
pub fn probe(seed: u64, lines: u64) -> String {
    let mut random = Random::new(seed);
    let sites = random.between(1, SITES as u64);
    let firsts = if random.chance(40) { even(sites) } else { random.firsts(sites) };
    let mut maker = Maker {
        probe: Probe::new(sites),
        text: format!("# Seed {seed}.\n"),
        lines: 1,
        table: Table::start(sites, &firsts).expect("a good table"),
        keys: [2, 5, 40, KEYS][random.below(4) as usize],
        lone: random.chance(25),
        forged: [0, 2, 10][random.below(3) as usize],
        order: [60, 90, 98][random.below(3) as usize],
        poked: [0, 2, 6][random.below(3) as usize],
        planted: 0,
        merged: vec![0; sites as usize],
        replayed: vec![0; super::COPIES],
        random,
    };
    maker.house();
    if maker.random.chance(30) {
        maker.near_the_ends();
    }
    while maker.lines < lines {
        maker.step();
    }
    if maker.random.chance(30) {
        maker.free_past_the_sizes();
    }
    maker.text
}

impl Maker {
    /// Writes a line, obeys it, and says whether it was accepted.
    fn say(&mut self, text: String) -> bool {
        let line = parse(&text).expect("a probe").expect("no remark");
        let mut output = String::new();
        self.lines += 1;
        self.probe.obey(self.lines, &line, &mut output).expect("a probe that is meant so");
        // Writing to a String cannot fail.
        let _ = writeln!(self.text, "{text}");
        output.split(' ').nth(1).is_some_and(|word| word.starts_with("ok"))
    }

    fn sites(&self) -> u64 {
        self.probe.sites.len() as u64
    }

    fn step(&mut self) {
        if self.random.chance(self.poked) {
            return self.poke();
        }
        let (site, transaction) = self.any_part();
        match self.random.weighted(if self.lone { &LONE } else { &SPANNING }) {
            0 => {
                let site = self.any_site();
                self.begin(site);
            }
            1 => {
                let target = self.any_site();
                self.say(format!("enlist {site} {transaction} {target}"));
            }
            2 => {
                let key = self.key(site);
                self.say(format!("read {site} {transaction} {key}"));
            }
            3 => {
                let key = self.key(site);
                self.write(site, transaction, key);
            }
            4 => drop(self.say(format!("commit {site} {transaction}"))),
            5 => drop(self.say(format!("abandon {site} {transaction}"))),
            6 => self.message(),
            7 => drop(self.say(format!("install {site}"))),
            8 => drop(self.say(format!("report {site}"))),
            9 => self.merge(),
            10 => drop(self.say("emit".to_string())),
            11 => self.replay(),
            12 => {
                let (copy, key) = (self.random.between(0, 3), self.random.below(KEYS + 2));
                self.say(format!("value {copy} {key}"));
            }
            13 => self.room(),
            14 => self.near_the_end(site),
            15 => self.past_the_sizes(site),
            16 => self.lent(site, transaction),
            17 => self.search(site),
            18 => self.fill(),
            19 => self.tables(site),
            20 => self.convert(),
            _ => self.bytes(),
        }
    }

    fn any_site(&mut self) -> u64 {
        self.random.site(self.sites())
    }

    fn any_part(&mut self) -> (u64, u64) {
        self.random.part(self.probe.sites.iter().map(|one| &one.site), 40)
    }

    fn message(&mut self) {
        let letters = self.probe.hand.letters();
        let next: Vec<[u64; 3]> = (letters.iter())
            .filter(|words| {
                let taken = self.probe.sites[words[3] as usize - 1].site.taken;
                taken[words[2] as usize - 1].checked_add(1) == Some(words[4])
            })
            .map(|words| [words[2], words[3], words[4]])
            .collect();
        let all: Vec<[u64; 3]> =
            letters.iter().map(|words| [words[2], words[3], words[4]]).collect();
        let in_turn = self.random.chance(self.order);
        let Some([from, to, number]) = self.random.pick(if in_turn { &next } else { &all }) else {
            return;
        };
        if !self.say(format!("letter {from} {to} {number}")) {
            return;
        }
        if self.random.chance(self.forged) {
            self.forge();
        }
        if self.random.chance(2 * self.forged) {
            self.forge_desk();
        }
        let to = if self.random.chance(2) { self.any_site() } else { to };
        self.say(format!("message {to}"));
    }

    /// Changes one to three of the words in hand, or their number.
    fn forge(&mut self) {
        let words = self.probe.hand.words().to_vec();
        for _ in 0..self.random.between(1, 3) {
            let place = self.random.below(words.len().min(30) as u64);
            let word = words[place as usize];
            let value = match self.random.below(6) {
                0 => self.random.word(),
                1 => u64::MAX,
                2 => word.wrapping_add(1),
                3 => word.wrapping_sub(1),
                4 => word ^ (1 << self.random.below(64)),
                _ => self.random.below(20),
            };
            self.say(format!("word {place} {value}"));
        }
        if self.random.chance(10) {
            let length = self.random.below(words.len() as u64 + 4);
            self.say(format!("cut {length}"));
        }
    }

    fn forge_record(&mut self) {
        if self.random.chance(self.forged) {
            self.forge();
        }
        if self.random.chance(self.forged) {
            self.forge_value();
        }
    }

    /// A log's next record, or one from before.
    fn merge(&mut self) {
        let site = self.random.between(1, self.sites());
        let taken = self.merged[site as usize - 1];
        let again = self.random.chance(15);
        let count = if again { self.random.below(taken + 1) + 1 } else { taken + 1 };
        if !self.say(format!("record {site} {count}")) {
            return;
        }
        self.forge_record();
        if self.say("merge".to_string()) && count == taken + 1 {
            self.merged[site as usize - 1] += 1;
        }
    }

    fn replay(&mut self) {
        let copy = self.random.between(1, super::COPIES as u64);
        let taken = self.replayed[copy as usize - 1];
        let again = self.random.chance(15);
        let count = if again { self.random.below(taken + 1) + 1 } else { taken + 1 };
        if !self.say(format!("record 0 {count}")) {
            return;
        }
        self.forge_record();
        if self.say(format!("replay {copy}")) && count == taken + 1 {
            self.replayed[copy as usize - 1] += 1;
        }
    }

    /// A buffer around a length that some call asks for, for one call.
    fn room(&mut self) {
        let asked = [PART_BUFFER, MERGED_BUFFER, SEND_BUFFER][self.random.below(3) as usize];
        let length = asked as u64 + self.random.below(3) - 1;
        self.say(format!("room {length}"));
        let (site, transaction) = self.any_part();
        match self.random.below(6) {
            0 => self.say(format!("commit {site} {transaction}")),
            1 => self.say(format!("abandon {site} {transaction}")),
            2 => self.say(format!("message {site}")),
            3 => self.say(format!("install {site}")),
            4 => self.say(format!("report {site}")),
            _ => self.say("emit".to_string()),
        };
        self.say(format!("room {SEND_BUFFER}"));
    }

    /// A table of a site one word shorter or longer, 16 words shorter, or none of it,
    /// for some calls.
    fn lent(&mut self, site: u64, transaction: u64) {
        let tables = [("places", PLACES), ("slots", SLOTS), ("base", BASE), ("lists", LISTS)];
        let (verb, size) = tables[self.random.below(4) as usize];
        let length = [0, size - 1, size + 1, size - LIVE as u64][self.random.below(4) as usize];
        self.say(format!("{verb} {length}"));
        for _ in 0..self.random.between(1, 3) {
            let key = self.key(site);
            match self.random.below(11) {
                0 => drop(self.begin(site)),
                1 => drop(self.say(format!("enlist {site} {transaction} {site}"))),
                2 => drop(self.say(format!("read {site} {transaction} {key}"))),
                3 => self.write(site, transaction, key),
                4 => drop(self.say(format!("commit {site} {transaction}"))),
                5 => drop(self.say(format!("abandon {site} {transaction}"))),
                6 => self.message(),
                7 => drop(self.say(format!("install {site}"))),
                8 => drop(self.say(format!("report {site}"))),
                9 => self.search(site),
                _ => drop(self.say(format!("start {site} {} {site}", self.sites()))),
            }
        }
        self.say(format!("{verb} {size}"));
    }

    fn near_the_ends(&mut self) {
        for site in 1..=self.sites() {
            for _ in 0..2 {
                self.near_the_end(site);
            }
            // Before anything began: a snapshot is never above the installs.
            if self.random.chance(30) {
                let left = self.random.below(12);
                self.say(format!("site {site} 4 {}", u64::MAX - left));
                self.fill_the_history(site);
            }
        }
    }

    /// A clock, a serial or a channel of which little is left.
    fn near_the_end(&mut self, site: u64) {
        if !is_site(site, self.sites()) {
            return;
        }
        let other = self.random.between(1, self.sites());
        let left = self.random.below(12);
        match self.random.below(4) {
            0 => drop(self.say(format!("site {site} 2 {}", u64::MAX - left))),
            // A serial is given once.
            1 if self.probe.sites[site as usize - 1].site.serial < LAST_SERIAL - left => {
                self.say(format!("site {site} 3 {}", LAST_SERIAL - left));
            }
            2 | 3 if other != site => {
                self.say(format!("site {site} {} {}", 10 + other, u64::MAX - left));
                self.say(format!("site {other} {} {}", 20 + site, u64::MAX - left));
            }
            _ => {}
        }
    }

    /// A state past the sizes, some calls, and the state as it was.
    fn past_the_sizes(&mut self, site: u64) {
        if !is_site(site, self.sites()) {
            return;
        }
        let state = &self.probe.sites[site as usize - 1].site;
        let part = self.random.pick(&state.live);
        let (poke, restore) = match (self.random.below(6), part) {
            (0, _) => (format!("site {site} 0 9"), format!("site {site} 0 {}", state.table.sites)),
            (1, _) => (format!("site {site} 1 0"), format!("site {site} 1 {}", state.own)),
            (2, _) => {
                (format!("site {site} 3 {}", 1u64 << 32), format!("site {site} 3 {}", state.serial))
            }
            (field, Some(part)) => {
                let (field, past, now) = match field {
                    3 => (2, 6, sums::course(&part, state.own).0),
                    4 => (8, 17, part.footprint.reads.len() as u64),
                    _ => (9, 17, part.footprint.writes.len() as u64),
                };
                let poke = format!("live {site} {} {field}", part.transaction);
                (format!("{poke} {past}"), format!("{poke} {now}"))
            }
            _ => return,
        };
        self.say(poke);
        let (_, transaction) = self.any_part();
        self.begin(site);
        self.search(site);
        self.say(format!("commit {site} {transaction}"));
        self.say(format!("install {site}"));
        self.say(format!("message {site}"));
        self.say(restore);
    }
}
