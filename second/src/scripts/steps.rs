//! Random steps, most of them such that the house has something to do.

use super::profile::{Step, Weights, STEPS};
use super::Generator;
use crate::site::{Part, Site, Stage};
use crate::sizes::*;

pub(super) fn coordinates(site: &Site, part: &Part) -> bool {
    coordinator_of(part.transaction) == site.own
}

impl Generator {
    pub(super) fn step(&mut self, weights: &Weights) {
        match STEPS[self.random.weighted(weights)] {
            Step::Begin => {
                let site = self.any_site();
                self.begin(site);
            }
            Step::Enlist => self.enlist(),
            Step::Read => self.read(),
            Step::Write => self.write(),
            Step::Commit => self.commit(),
            Step::Abandon => self.abandon(),
            Step::Take => self.take(),
            Step::Install => self.install(),
            Step::Report => {
                let site = self.any_site();
                self.tell("report", &[site]);
            }
            Step::Merge => self.merge(),
            Step::Emit => self.tell("emit", &[]),
            Step::Replay => self.replay(),
            Step::Value => self.value(),
            Step::Noise => self.noise(),
        }
    }

    fn enlist(&mut self) {
        let parts = self.parts(|site, part| coordinates(site, part) && part.is_active());
        let Some((site, transaction)) = self.random.pick(&parts) else { return };
        let target = if self.random.chance(95) { self.other_site(site) } else { self.any_site() };
        self.tell("enlist", &[transaction, target]);
    }

    /// A part that takes reads and writes, with a key of its site, or at times one on
    /// either side of an edge of its range.
    fn active_part(&mut self) -> Option<(u64, u64, u64)> {
        let parts = self.parts(|_, part| part.is_active());
        let (site, transaction) = self.random.pick(&parts)?;
        let key = match self.random.chance(6) {
            true => {
                let range = self.range(site);
                self.random.edge(range)
            }
            false => self.key_of(site),
        };
        Some((site, transaction, key))
    }

    fn read(&mut self) {
        let Some((site, transaction, key)) = self.active_part() else { return };
        self.tell("read", &[site, transaction, key]);
    }

    fn write(&mut self) {
        let Some((site, transaction, key)) = self.active_part() else { return };
        let value = self.fresh_value();
        self.write_at(site, transaction, key, value);
    }

    /// Mostly where every JOINED has come.
    fn commit(&mut self) {
        let joining = self.random.chance(10);
        let parts = self.parts(|site, part| {
            let waits = part.outstanding(site.own) != 0;
            coordinates(site, part) && part.is_active() && waits == joining
        });
        let Some((_, transaction)) = self.random.pick(&parts) else { return };
        self.tell("commit", &[transaction]);
    }

    fn abandon(&mut self) {
        let parts = self.parts(coordinates);
        let Some((_, transaction)) = self.random.pick(&parts) else { return };
        self.tell("abandon", &[transaction]);
    }

    fn spares(&mut self, site: u64) -> bool {
        self.profile.laggard == Some(site) && self.random.chance(90)
    }

    /// Channels that hold a message.
    pub(super) fn full_channels(&self) -> Vec<(u64, u64)> {
        let mut full = Vec::new();
        for (from, channels) in (1..).zip(&self.running().channels) {
            let filled = (1..).zip(channels).filter(|(_, channel)| !channel.is_empty());
            full.extend(filled.map(|(to, _)| (from, to)));
        }
        full
    }

    fn take(&mut self) {
        let full = self.full_channels();
        let Some((from, to)) = self.random.pick(&full) else { return };
        if !self.spares(to) {
            self.tell("take", &[from, to]);
        }
    }

    fn install(&mut self) {
        let decided = self.parts(|_, part| matches!(part.stage, Stage::Decided { .. }));
        let Some((site, _)) = self.random.pick(&decided) else { return };
        if !self.spares(site) {
            self.tell("install", &[site]);
        }
    }

    fn merge(&mut self) {
        let logs = (1..).zip(&self.running().logs);
        let full: Vec<u64> =
            logs.filter(|(_, log)| !log.is_empty()).map(|(site, _)| site).collect();
        if let Some(site) = self.random.pick(&full) {
            self.tell("merge", &[site]);
        }
    }

    fn replay(&mut self) {
        let running = self.running();
        let replayed = (1..).zip(&running.replayed);
        let behind: Vec<u64> = replayed
            .filter(|(_, &replayed)| replayed < running.stream.len())
            .map(|(copy, _)| copy)
            .collect();
        if let Some(copy) = self.random.pick(&behind) {
            self.tell("replay", &[copy]);
        }
    }

    fn value(&mut self) {
        let (site, copy) = (self.any_site(), self.random.between(1, COPIES as u64));
        let key = self.key_of(site);
        self.tell("value", &[copy, key]);
    }
}
