//! The merger: parts of every log into one stream (G1 to G4, Q3.4 to Q3.6).

use std::collections::VecDeque;

use crate::answer::{require, Pair, Refusal};
use crate::record::{self, LogRecord, Save};
use crate::sizes::*;
use crate::table::Table;

/// What the merger has taken from one log.
#[derive(Clone, PartialEq, Eq, Debug, Default)]
pub struct Log {
    pub state: u64,
    /// Pair of the last part; (0, 0) before the first.
    pub last: Pair,
    pub queue: VecDeque<Save>,
}

#[derive(Clone, PartialEq, Eq, Debug)]
pub struct Merger {
    /// Number of sites of the house, and where its keys live.
    pub table: Table,
    /// Of eight sites; those that the house lacks bring nothing.
    pub logs: [Log; SITES],
}

/// Outcome of an emit: words written, and what was joined.
#[derive(Clone, Copy, PartialEq, Eq, Debug)]
pub struct Emitted {
    pub words: usize,
    pub pair: Pair,
    pub transaction: u64,
}

impl Merger {
    pub fn start(sites: u64, firsts: &[u64]) -> Result<Self, Refusal> {
        Ok(Merger { table: Table::start(sites, firsts)?, logs: Default::default() })
    }

    /// Takes a record of a log.
    pub fn merge(&mut self, words: &[u64]) -> Result<(), Refusal> {
        match record::parse_log(words, &self.table)? {
            LogRecord::Part { site, save } => {
                let log = &mut self.logs[site as usize - 1];
                let above = save.pair > log.last && save.pair.number > log.state;
                require(above, Refusal::NotAbove)?;
                require(log.queue.len() < QUEUED_PARTS, Refusal::QueueFull)?;
                log.last = save.pair;
                log.queue.push_back(save);
            }
            LogRecord::State { site, number } => {
                let log = &mut self.logs[site as usize - 1];
                require(number >= log.state, Refusal::NotAbove)?;
                log.state = number;
            }
        }
        Ok(())
    }

    /// Joins the parts of the least head, once no log can bring a smaller one.
    pub fn emit(&mut self, out: &mut [u64]) -> Result<Emitted, Refusal> {
        require(out.len() >= MERGED_BUFFER, Refusal::BufferTooShort)?;
        let pair = self.due().ok_or(Refusal::Nothing)?;
        require(self.is_whole(pair), Refusal::PartsDisagree)?;
        let mut parts = Vec::with_capacity(SITES);
        for log in &mut self.logs[..self.table.sites as usize] {
            if log.queue.front().is_some_and(|head| head.pair == pair) {
                parts.extend(log.queue.pop_front());
            }
        }
        let merged = Save {
            pair,
            transaction: parts[0].transaction,
            participants: parts[0].participants,
            // Sites ascend and hold ascending ranges of keys.
            writes: parts.into_iter().flat_map(|part| part.writes).collect(),
        };
        let words = record::write_save(out, record::MERGED, 0, &merged);
        Ok(Emitted { words, pair, transaction: merged.transaction })
    }

    /// Of the sites of the house.
    fn house_logs(&self) -> &[Log] {
        &self.logs[..self.table.sites as usize]
    }

    /// The least head, if every log has a queued part or a state that reaches it.
    pub fn due(&self) -> Option<Pair> {
        let heads = self.house_logs().iter().filter_map(|log| log.queue.front());
        let least = heads.map(|head| head.pair).min()?;
        let reached = |log: &Log| !log.queue.is_empty() || log.state >= least.number;
        self.house_logs().iter().all(reached).then_some(least)
    }

    /// The heads with this pair are those of the mask and agree.
    fn is_whole(&self, pair: Pair) -> bool {
        let mut sites = 0;
        let mut first: Option<&Save> = None;
        for (place, log) in self.house_logs().iter().enumerate() {
            let Some(head) = log.queue.front().filter(|head| head.pair == pair) else { continue };
            sites |= 1 << place;
            let one = first.get_or_insert(head);
            if one.transaction != head.transaction || one.participants != head.participants {
                return false;
            }
        }
        first.is_some_and(|head| head.participants == sites)
    }
}
