//! Draining: everything under way is carried to its end.

use super::steps::coordinates;
use super::Generator;
use crate::answer::Refusal;
use crate::site::Stage;
use crate::sizes::*;

impl Generator {
    /// Takes every message, in a random order of channels.
    pub(super) fn take_all(&mut self) {
        self.take_all_but((0, 0));
    }

    /// The same, but for one channel.
    pub(super) fn take_all_but(&mut self, late: (u64, u64)) {
        loop {
            let mut full = self.full_channels();
            full.retain(|&channel| channel != late);
            let Some((from, to)) = self.random.pick(&full) else { return };
            if self.say("take", &[from, to]).is_err() {
                return;
            }
        }
    }

    pub(super) fn install_all(&mut self) {
        for site in 1..=self.sites() {
            self.install_at(site);
        }
    }

    /// Installs what is decided at a site.
    pub(super) fn install_at(&mut self, site: u64) {
        let decided = |stage: &Stage| matches!(stage, Stage::Decided { .. });
        while self.site(site).live.iter().any(|part| decided(&part.stage)) {
            if self.say("install", &[site]).is_err() {
                return;
            }
        }
    }

    /// Ends every active transaction, takes and installs all.
    pub(super) fn settle(&mut self) {
        self.take_all();
        for (_, transaction) in self.parts(coordinates) {
            match self.random.below(4) {
                0 => self.tell("abandon", &[transaction]),
                _ => self.tell("commit", &[transaction]),
            }
        }
        self.take_all();
        self.install_all();
    }

    /// Merges and emits until nothing more is due.
    fn merge_all(&mut self) {
        for site in 1..=self.sites() {
            while !self.running().logs[site as usize - 1].is_empty() {
                match self.say("merge", &[site]) {
                    Err(Refusal::QueueFull) if self.say("emit", &[]).is_ok() => {}
                    Err(_) => break,
                    Ok(_) => {}
                }
            }
        }
        while self.say("emit", &[]).is_ok() {}
    }

    /// A save that spans the house raises every clock, so that idle sites
    /// hold nothing back.
    fn spanning_save(&mut self) {
        let Some(transaction) = self.begin(1) else { return };
        for site in 2..=self.sites() {
            self.tell("enlist", &[transaction, site]);
        }
        self.take_all();
        self.tell("commit", &[transaction]);
        self.take_all();
        self.install_all();
    }

    pub(super) fn drain(&mut self) {
        self.settle();
        if self.random.chance(60) {
            self.spanning_save();
        }
        for site in 1..=self.sites() {
            self.tell("report", &[site]);
        }
        let mut pending = usize::MAX;
        loop {
            self.merge_all();
            let left = self.running().logs.iter().map(|log| log.len()).sum();
            if left >= pending || left == 0 {
                break;
            }
            pending = left;
        }
        for copy in 1..=COPIES as u64 {
            if self.random.chance(60) {
                continue;
            }
            while self.say("replay", &[copy]).is_ok() {}
            for _ in 0..3 {
                let site = self.any_site();
                let key = self.key_of(site);
                self.tell("value", &[copy, key]);
            }
        }
    }
}
