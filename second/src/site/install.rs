//! The queue of a site: install and report (C51 to C59, Q12.1).

use super::{Installed, Site, Stage};
use crate::answer::{require, Pair, Refusal};
use crate::record::{self, Save};
use crate::sizes::*;

/// Outcome of an install: words written and the pair installed.
#[derive(Clone, Copy, PartialEq, Eq, Debug)]
pub struct InstallDone {
    pub words: usize,
    pub pair: Pair,
}

/// Outcome of a report: words written and the state number.
#[derive(Clone, Copy, PartialEq, Eq, Debug)]
pub struct Report {
    pub words: usize,
    pub state: u64,
}

impl Site {
    pub fn install(&mut self, out: &mut [u64]) -> Result<InstallDone, Refusal> {
        require(out.len() >= PART_BUFFER, Refusal::BufferTooShort)?;
        let (place, number) = self.decided_head().ok_or(Refusal::Nothing)?;
        require(self.installs < u64::MAX, Refusal::CountSpent)?;
        let part = self.live.remove(place);
        let save = Save {
            pair: Pair::new(number, coordinator_of(part.transaction)),
            transaction: part.transaction,
            participants: part.participants,
            writes: part.footprint.by_key(),
        };
        self.installs += 1;
        self.history.push_back(Installed {
            install: self.installs,
            transaction: part.transaction,
            participants: part.participants,
            footprint: part.footprint,
        });
        self.forget();
        let words = record::write_save(out, record::PART, self.own, &save);
        Ok(InstallDone { words, pair: save.pair })
    }

    pub fn report(&mut self, out: &mut [u64]) -> Result<Report, Refusal> {
        require(out.len() >= PART_BUFFER, Refusal::BufferTooShort)?;
        let state = self.state_number();
        let words = record::write_state(out, self.own, state);
        Ok(Report { words, state })
    }

    /// The least of clock, open marks, and decided numbers less 1.
    pub fn state_number(&self) -> u64 {
        let held_back = self.live.iter().filter_map(|part| match part.stage {
            Stage::Open { mark } => Some(mark),
            Stage::Decided { number } => Some(number.saturating_sub(1)),
            _ => None,
        });
        held_back.fold(self.clock, u64::min)
    }

    /// The queue's least, if decided, with its commit number.
    fn decided_head(&self) -> Option<(usize, u64)> {
        let queued = self.live.iter().enumerate();
        let (_, place) =
            queued.filter_map(|(place, part)| Some((part.queue_order()?, place))).min()?;
        match self.live[place].stage {
            Stage::Decided { number } => Some((place, number)),
            _ => None,
        }
    }

    /// The oldest entry beyond the history's size goes into the base values.
    fn forget(&mut self) {
        if self.history.len() <= HISTORY {
            return;
        }
        if let Some(oldest) = self.history.pop_front() {
            for (key, value) in oldest.footprint.values {
                self.base[key as usize] = value;
            }
        }
    }
}
