//! Which call comes next in a random list.

use super::{Fuzz, Words};
use crate::site::Stage;
use crate::sizes::*;
use crate::world::Call;

//                         begin enl read wri com ab take inst rep merge emit repl val search
const SPANNING: [u64; 14] = [8, 10, 8, 14, 10, 1, 60, 16, 4, 14, 10, 8, 2, 6];
/// Few messages, many installs: history is forgotten.
const LONE: [u64; 14] = [30, 3, 8, 14, 40, 0, 30, 40, 2, 16, 12, 6, 1, 12];

/// A call but for the words that are handed in.
#[derive(Clone, Copy)]
pub(super) enum Source {
    Plain(Call<'static>),
    Message { site: u64 },
    Merge,
    Replay { copy: u64 },
}

impl Source {
    pub(super) fn call(self, words: &[u64]) -> Call<'_> {
        match self {
            Source::Plain(call) => call,
            Source::Message { site } => Call::Message { site, words },
            Source::Merge => Call::Merge { words },
            Source::Replay { copy } => Call::Replay { copy, words },
        }
    }
}

impl Fuzz {
    pub(super) fn choose(&mut self) -> (Words, Source) {
        let plain = |call| (Vec::new(), Source::Plain(call));
        if self.random.chance(self.filling) {
            if let Some(call) = self.fill() {
                return plain(call);
            }
        }
        let site = self.any_site();
        let (at, transaction) = self.random.part(self.world.sites.iter(), 30);
        match self.random.weighted(if self.lone { &LONE } else { &SPANNING }) {
            0 => plain(Call::Begin { site, desk: self.any_desk() }),
            1 => plain(Call::Enlist { site: at, transaction, target: site }),
            2 => plain(Call::Read { site: at, transaction, key: self.key(at) }),
            3 => {
                let (key, value) = (self.key(at), self.random.value());
                plain(Call::Write { site: at, transaction, key, value })
            }
            4 => plain(Call::Commit { site: at, transaction }),
            5 => plain(Call::Abandon { site: at, transaction }),
            6 => self.any_message(),
            7 => plain(Call::Install { site: self.busy_site() }),
            8 => plain(Call::Report { site }),
            9 => (self.any_record(), Source::Merge),
            10 => plain(Call::Emit),
            11 => self.any_replay(),
            12 => {
                let (copy, key) = (self.random.between(0, 9), self.random.below(KEYS + 2));
                plain(Call::Value { copy, key })
            }
            _ => plain(self.any_search(site)),
        }
    }

    /// Both desks, and now and then none.
    fn any_desk(&mut self) -> u64 {
        match self.random.below(40) {
            0 => self.random.between(2, 12),
            1 => self.random.word(),
            _ => u64::from(self.random.chance(self.proofing)),
        }
    }

    /// A read or write of one part again and again, with any key of its site, until it
    /// leaves its first stage: so sets fill up.
    fn fill(&mut self) -> Option<Call<'static>> {
        let sites = self.world.sites.iter();
        let parts = sites.flat_map(|site| site.live.iter().map(|part| (site.own, part)));
        let active: Vec<(u64, u64)> = parts
            .filter(|(_, part)| part.is_active())
            .map(|(site, part)| (site, part.transaction))
            .collect();
        if !active.contains(&self.filled) || self.random.chance(2) {
            self.filled = self.random.pick(&active)?;
        }
        let (site, transaction) = self.filled;
        let key = self.random.key(&self.table, site, KEYS);
        Some(match self.random.below(2) {
            0 => Call::Read { site, transaction, key },
            _ => Call::Write { site, transaction, key, value: self.random.value() },
        })
    }

    fn key(&mut self, site: u64) -> u64 {
        self.random.key(&self.table, site, self.keys)
    }

    fn any_site(&mut self) -> u64 {
        self.random.site(self.world.sites.len() as u64)
    }

    /// Mostly a snapshot of which little or nothing is forgotten.
    fn any_search(&mut self, site: u64) -> Call<'static> {
        let place = (site as usize).clamp(1, self.world.sites.len()) - 1;
        let installs = self.world.sites[place].installs;
        let snapshot = match self.random.below(10) {
            0 => self.random.word(),
            1 => installs.saturating_add(self.random.below(3)),
            _ => installs.saturating_sub(self.random.below(HISTORY as u64 + 2)),
        };
        let key = self.key(site);
        Call::Search { site, snapshot, key }
    }

    /// A site with a decided part, if there is one.
    fn busy_site(&mut self) -> u64 {
        let decided = |stage: &Stage| matches!(stage, Stage::Decided { .. });
        let sites = self.world.sites.iter();
        let busy: Vec<u64> = sites
            .filter(|site| site.live.iter().any(|part| decided(&part.stage)))
            .map(|site| site.own)
            .collect();
        self.random.pick(&busy).unwrap_or(1)
    }

    /// Words that some call wrote, of any kind.
    fn any_words(&mut self) -> Words {
        let log = self.random.below(self.logs.len() as u64) as usize;
        let list = match self.random.below(3) {
            0 => &self.posted,
            1 => &self.logs[log].records,
            _ => &self.stream,
        };
        self.random.pick(list).unwrap_or_default()
    }

    /// Mostly the next of a channel; else any, to its site or a wrong one.
    fn any_message(&mut self) -> (Words, Source) {
        let site = self.any_site();
        if self.random.chance(self.order) {
            let next: Vec<&Words> =
                self.posted.iter().filter(|words| self.is_next(words)).collect();
            if let Some(words) = self.random.pick(&next) {
                return (words.clone(), Source::Message { site: words[3] });
            }
        }
        match self.random.below(10) {
            0 => (self.any_words(), Source::Message { site }),
            1 => (self.random.pick(&self.posted).unwrap_or_default(), Source::Message { site }),
            _ => {
                let words = self.random.pick(&self.posted).unwrap_or_default();
                let to = words.get(3).copied().unwrap_or(site);
                (words, Source::Message { site: to })
            }
        }
    }

    fn is_next(&self, words: &[u64]) -> bool {
        let (from, to) = (words[2], words[3]);
        let taken = self.world.sites[to as usize - 1].taken[from as usize - 1];
        (from, to) != self.mute && taken.checked_add(1) == Some(words[4])
    }

    /// A log's next record or one taken before; now and then no log's.
    fn any_record(&mut self) -> Words {
        if self.random.chance(4) {
            // A record of a log may come only after all before it.
            return self.random.pick(&self.posted).unwrap_or_default();
        }
        let log = self.random.below(self.logs.len() as u64) as usize;
        let log = &self.logs[log];
        let reach = (log.taken + 1).min(log.records.len());
        if self.random.chance(85) {
            return log.records.get(log.taken).cloned().unwrap_or_default();
        }
        self.random.pick(&log.records[..reach]).unwrap_or_default()
    }

    fn any_replay(&mut self) -> (Words, Source) {
        let copy = self.random.between(1, COPIES as u64);
        let taken = self.replayed[copy as usize - 1];
        let reach = (taken + 1).min(self.stream.len());
        let words = match self.random.below(20) {
            0 => self.random.pick(&self.posted),
            1 | 2 => self.random.pick(&self.stream[..reach]),
            _ => self.stream.get(taken).cloned(),
        };
        (words.unwrap_or_default(), Source::Replay { copy })
    }
}
