//! Counts of calls, outcomes, refusals, reasons of abort and replies.

use std::collections::BTreeMap;
use std::fmt;

use crate::answer::{Decision, Refusal};
use crate::desk::Desk;
use crate::house::messages;
use crate::site::Part;
use crate::sizes::*;
use crate::table::{even, Table};
use crate::world::{Answer, Call, World};

const LINES: [&str; 14] = [
    "line sites",
    "line begin",
    "line enlist",
    "line read",
    "line write",
    "line commit",
    "line abandon",
    "line take",
    "line install",
    "line report",
    "line merge",
    "line emit",
    "line replay",
    "line value",
];

#[derive(Clone, Debug, Default)]
pub struct Tally {
    counts: BTreeMap<(&'static str, String), u64>,
    longest_list: u64,
    most_words: usize,
}

impl Tally {
    pub fn count(&mut self, what: &'static str, outcome: String) {
        *self.counts.entry((what, outcome)).or_default() += 1;
    }

    pub fn called(&mut self, call: &Call, answer: &Result<Answer, Refusal>, written: &[u64]) {
        self.count(name(call), outcome(answer));
        self.replies(call, answer, written);
    }

    /// Counts what a call sent: replies by argument, lengths.
    pub fn replies(&mut self, call: &Call, answer: &Result<Answer, Refusal>, written: &[u64]) {
        let Ok(Answer::Sent(_)) = answer else { return };
        self.most_words = self.most_words.max(written.len());
        for message in messages(written) {
            self.longest_list = self.longest_list.max(message[8]);
            let argument = format!("replies {}", message[7]);
            if matches!(message[1], 2 | 6) {
                self.count(name(call), argument);
            } else if message[1] == 4 {
                self.count(name(call), "replies CONC".to_string());
            }
        }
    }

    /// Counts begins by desk, and writes refused 11 by desk and kind of site. A
    /// refused call leaves the part as it was.
    pub fn desks(&mut self, call: &Call, answer: &Result<Answer, Refusal>, world: &World) {
        match (*call, answer) {
            (Call::Begin { desk, .. }, _) => {
                let desk = match Desk::of(desk) {
                    Some(Desk::House) => "desk house",
                    Some(Desk::Proofing) => "desk proofing",
                    None => "desk other",
                };
                self.count(desk, outcome(answer));
            }
            (Call::Write { site, transaction, .. }, Err(Refusal::TooManyKeys)) => {
                let state = &world.sites[site as usize - 1];
                let Some(place) = state.find(transaction) else { return };
                let limit = match state.live[place].desk {
                    Desk::House => "17th written",
                    Desk::Proofing => "5th written",
                };
                let coordinates = coordinator_of(transaction) == site;
                let at = if coordinates { "coordinator" } else { "participant" };
                self.count(limit, at.to_string());
            }
            _ => {}
        }
    }

    /// Counts writes by their length, and apart those of own keys that do not fit.
    pub fn values(&mut self, call: &Call, answer: &Result<Answer, Refusal>, world: &World) {
        let Call::Write { site, transaction, key, value } = *call else { return };
        let length = match value.length {
            _ if !value.fits() => "too long",
            0 => "length 0",
            length if value.start == u64::MAX - length => "to the end",
            _ => "some length",
        };
        self.count(length, outcome(answer));
        let state = world.sites.get(site.wrapping_sub(1) as usize);
        let held = state.and_then(|state| Some(&state.live[state.find(transaction)?]));
        let wrote = |part: &Part| part.footprint.values.iter().any(|write| write.0 == key);
        if !value.fits() && held.is_some_and(wrote) {
            self.count("own too long", outcome(answer));
        }
    }

    /// Counts the house by its table.
    pub fn table(&mut self, table: &Table) {
        let is_even = even(table.sites) == table.firsts[..table.sites as usize];
        let kind = if is_even { "even" } else { "uneven" };
        self.count("table", kind.to_string());
        if (1..=table.sites).any(|site| table.keys(site).count() == 1) {
            self.count("table", "site of one".to_string());
        }
    }

    /// Counts a line of a script, under its first word if that is a command's.
    pub fn line(&mut self, line: &str, answer: &Result<Answer, Refusal>) {
        let first = line.split(' ').next().unwrap_or_default();
        let name = LINES.iter().find(|name| name[5..] == *first);
        self.count(name.unwrap_or(&"line (bad)"), outcome(answer));
        self.count("any line", outcome(answer));
    }

    pub fn get(&self, what: &'static str, outcome: &str) -> u64 {
        self.counts.get(&(what, outcome.to_string())).copied().unwrap_or(0)
    }

    /// How often an outcome was counted, whatever had it.
    pub fn total(&self, outcome: &str) -> u64 {
        let alike = self.counts.iter().filter(|((_, counted), _)| counted == outcome);
        alike.map(|(_, count)| count).sum()
    }

    pub fn add(&mut self, other: &Tally) {
        for (key, count) in &other.counts {
            *self.counts.entry(key.clone()).or_default() += count;
        }
        self.longest_list = self.longest_list.max(other.longest_list);
        self.most_words = self.most_words.max(other.most_words);
    }
}

fn name(call: &Call) -> &'static str {
    match call {
        Call::Begin { .. } => "begin",
        Call::Enlist { .. } => "enlist",
        Call::Read { .. } => "read",
        Call::Write { .. } => "write",
        Call::Search { .. } => "search",
        Call::Commit { .. } => "commit",
        Call::Abandon { .. } => "abandon",
        Call::Message { words, .. } => match words.get(1) {
            Some(1) => "take JOIN",
            Some(2) => "take JOINED",
            Some(3) => "take PREPARE",
            Some(4) => "take CONC",
            Some(5) => "take CERT",
            Some(6) => "take VOTE",
            Some(7) => "take COMMIT",
            Some(8) => "take ABORT",
            _ => "take other",
        },
        Call::Install { .. } => "install",
        Call::Report { .. } => "report",
        Call::Merge { words } if words.get(1) == Some(&1) => "merge part",
        Call::Merge { words } if words.get(1) == Some(&2) => "merge state",
        Call::Merge { .. } => "merge other",
        Call::Emit => "emit",
        Call::Replay { .. } => "replay",
        Call::Value { .. } => "value",
    }
}

fn outcome(answer: &Result<Answer, Refusal>) -> String {
    match answer {
        Err(refusal) => format!("refused {:2}", refusal.number()),
        Ok(answer) => match answer.decision() {
            Some(Decision::Commit(_)) => "ok, commits".to_string(),
            Some(Decision::Abort(reason)) => format!("ok, abort {reason}"),
            None => "ok".to_string(),
        },
    }
}

impl fmt::Display for Tally {
    fn fmt(&self, out: &mut fmt::Formatter) -> fmt::Result {
        let mut last = "";
        for ((what, outcome), count) in &self.counts {
            let shown = if *what == last { "" } else { what };
            last = what;
            writeln!(out, "{shown:13} {outcome:12} {count:>10}")?;
        }
        writeln!(
            out,
            "longest list {}, most words in one call {}",
            self.longest_list, self.most_words
        )
    }
}
