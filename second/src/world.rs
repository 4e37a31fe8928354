//! Sites, merger and copies of one house, and the fourteen calls on them as values.

use crate::answer::{Decision, Pair, Refusal, Sent};
use crate::copy::Copy;
use crate::merger::{Emitted, Merger};
use crate::site::{Found, InstallDone, Report, Site};
use crate::sizes::*;
use crate::value::Value;

#[derive(Clone, Copy, PartialEq, Eq, Debug)]
pub enum Call<'a> {
    Begin { site: u64, desk: u64 },
    Enlist { site: u64, transaction: u64, target: u64 },
    Read { site: u64, transaction: u64, key: u64 },
    Write { site: u64, transaction: u64, key: u64, value: Value },
    Search { site: u64, snapshot: u64, key: u64 },
    Commit { site: u64, transaction: u64 },
    Abandon { site: u64, transaction: u64 },
    Message { site: u64, words: &'a [u64] },
    Install { site: u64 },
    Report { site: u64 },
    Merge { words: &'a [u64] },
    Emit,
    Replay { copy: u64, words: &'a [u64] },
    Value { copy: u64, key: u64 },
}

#[derive(Clone, Copy, PartialEq, Eq, Debug)]
pub enum Answer {
    Done,
    Begun(u64),
    Value(Value),
    Sent(Sent),
    Installed(InstallDone),
    Reported(Report),
    Emitted(Emitted),
    Replayed(Pair),
    CopyValue(Value, Pair),
    Found(Found),
}

impl Answer {
    /// Words that the call wrote into its buffer.
    pub fn words(&self) -> usize {
        match self {
            Answer::Sent(sent) => sent.words,
            Answer::Installed(done) => done.words,
            Answer::Reported(report) => report.words,
            Answer::Emitted(emitted) => emitted.words,
            _ => 0,
        }
    }

    pub fn decision(&self) -> Option<Decision> {
        match self {
            Answer::Sent(sent) => sent.decision,
            _ => None,
        }
    }
}

#[derive(Clone, PartialEq, Eq, Debug)]
pub struct World {
    pub sites: Vec<Site>,
    pub merger: Merger,
    pub copies: Vec<Copy>,
}

impl World {
    /// Q3.8: one table for all sites and the merger.
    pub fn start(sites: u64, firsts: &[u64]) -> Result<Self, Refusal> {
        let merger = Merger::start(sites, firsts)?;
        let site = |own| Site::start(sites, firsts, own);
        let sites = (1..=sites).map(site).collect::<Result<_, _>>()?;
        Ok(World { sites, merger, copies: vec![Copy::start(); COPIES] })
    }

    /// A site or copy that is not there is impossible: 2.
    pub fn call(&mut self, call: &Call, out: &mut [u64]) -> Result<Answer, Refusal> {
        match *call {
            Call::Begin { site, desk } => self.site(site)?.begin(desk).map(Answer::Begun),
            Call::Enlist { site, transaction, target } => {
                self.site(site)?.enlist(transaction, target, out).map(Answer::Sent)
            }
            Call::Read { site, transaction, key } => {
                self.site(site)?.read(transaction, key).map(Answer::Value)
            }
            Call::Write { site, transaction, key, value } => {
                self.site(site)?.write(transaction, key, value).map(|()| Answer::Done)
            }
            Call::Search { site, snapshot, key } => {
                self.site(site)?.search(snapshot, key).map(Answer::Found)
            }
            Call::Commit { site, transaction } => {
                self.site(site)?.commit(transaction, out).map(Answer::Sent)
            }
            Call::Abandon { site, transaction } => {
                self.site(site)?.abandon(transaction, out).map(Answer::Sent)
            }
            Call::Message { site, words } => self.site(site)?.message(words, out).map(Answer::Sent),
            Call::Install { site } => self.site(site)?.install(out).map(Answer::Installed),
            Call::Report { site } => self.site(site)?.report(out).map(Answer::Reported),
            Call::Merge { words } => self.merger.merge(words).map(|()| Answer::Done),
            Call::Emit => self.merger.emit(out).map(Answer::Emitted),
            Call::Replay { copy, words } => self.copy(copy)?.replay(words).map(Answer::Replayed),
            Call::Value { copy, key } => {
                self.copy(copy)?.value(key).map(|(value, pair)| Answer::CopyValue(value, pair))
            }
        }
    }

    fn site(&mut self, site: u64) -> Result<&mut Site, Refusal> {
        place(&mut self.sites, site)
    }

    fn copy(&mut self, copy: u64) -> Result<&mut Copy, Refusal> {
        place(&mut self.copies, copy)
    }
}

/// Sites and copies count from 1.
fn place<T>(list: &mut [T], number: u64) -> Result<&mut T, Refusal> {
    let index = usize::try_from(number).ok().and_then(|number| number.checked_sub(1));
    index.and_then(|index| list.get_mut(index)).ok_or(Refusal::Impossible)
}
