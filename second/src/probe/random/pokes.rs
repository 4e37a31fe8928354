//! Random pokes: a part's course, numbers, gathered lists, sources of the merger.
//! What is possible stays as it was set; what is not is set back after some calls.

use super::Maker;
use crate::message::Kind;
use crate::site::{Part, Stage};
use crate::sizes::*;

/// Serials from here on are planted, and no probe's site gives them.
const PLANTED: u64 = 3_000_000_000;
/// The most entries that are planted in one list.
const ENTRIES: u64 = 4;

impl Maker {
    pub(super) fn poke(&mut self) {
        let Some((site, part)) = self.held() else { return self.poke_source() };
        match self.random.below(17) {
            0 | 8 => self.replies(site, part.transaction),
            1 | 2 | 9 => self.course(site, part.transaction),
            3 => self.number(site, &part),
            4 => self.past_number(site),
            5 | 6 => self.bad_list(site, &part),
            10 | 11 => self.desk(site, &part),
            12..=14 => self.value_of(site, &part),
            15 => self.queued_value(),
            16 => self.copied(),
            _ => self.poke_source(),
        }
        if self.random.chance(50) {
            self.say(format!("commit {site} {}", part.transaction));
        }
        if self.random.chance(30) {
            self.search(site);
        }
    }

    pub(super) fn held(&mut self) -> Option<(u64, Part)> {
        let sites = self.probe.sites.iter().map(|handed| &handed.site);
        let parts: Vec<(u64, Part)> =
            sites.flat_map(|site| site.live.iter().map(|part| (site.own, part.clone()))).collect();
        self.random.pick(&parts)
    }

    fn mask(&mut self) -> u64 {
        self.random.below(1 << self.sites())
    }

    /// A number that some site of the house can have given.
    fn transaction(&mut self) -> u64 {
        let coordinator = self.random.between(1, self.sites());
        self.planted += 1;
        transaction_number(coordinator, PLANTED + self.planted)
    }

    /// A number that no site of the house can have given.
    fn impossible(&mut self) -> u64 {
        let serial = self.random.between(1, 9);
        match self.random.below(5) {
            0 => 0,
            1 => serial,
            2 => transaction_number(self.sites() + 1, serial),
            3 => transaction_number(self.random.between(1, self.sites()), 0),
            _ => u64::MAX,
        }
    }

    /// Participants, or the sites heard; then replies of the round.
    fn replies(&mut self, site: u64, transaction: u64) {
        let poke = format!("live {site} {transaction}");
        let mask = self.mask();
        match self.random.below(3) {
            0 => drop(self.say(format!("{poke} 3 {mask}"))),
            1 => drop(self.say(format!("{poke} 3 {}", mask | site_bit(site)))),
            _ => drop(self.say(format!("{poke} 5 {}", mask & !site_bit(site)))),
        }
        self.some_replies(site, transaction);
    }

    /// The next messages of some sites, such as the stage waits for.
    fn some_replies(&mut self, site: u64, transaction: u64) {
        for _ in 0..self.random.below(4) {
            let state = &self.probe.sites[site as usize - 1].site;
            let Some(place) = state.find(transaction) else { return };
            let from = self.random.between(1, self.sites());
            let number = state.taken[from as usize - 1].wrapping_add(1);
            let kind = match state.live[place].stage {
                Stage::Active { .. } => Kind::Joined,
                Stage::Prepared => Kind::Conc,
                _ => Kind::Vote,
            };
            self.say(format!("head {} {from} {site} {number}", kind as u64));
            self.say(format!("word 5 {transaction}"));
            self.say(format!("message {site}"));
        }
    }

    /// Everything that a stage uses, the stage first.
    fn course(&mut self, site: u64, transaction: u64) {
        let poke = format!("live {site} {transaction}");
        let clock = self.probe.sites[site as usize - 1].site.clock;
        let stage = [1, 1, 2, 2, 3, 3, 4, 5][self.random.below(8) as usize];
        let (mask, heard) = (self.mask(), self.mask() & !site_bit(site));
        let others = mask & !site_bit(site);
        let heard = if self.random.chance(30) { others } else { heard };
        let mask = if self.random.chance(80) { mask | site_bit(site) } else { mask };
        let number = clock.saturating_add(self.random.below(3));
        let reason = if self.random.chance(10) { 12 } else { 0 };
        for (field, value) in [(2, stage), (3, mask), (4, number), (5, heard), (6, reason)] {
            self.say(format!("{poke} {field} {value}"));
        }
        self.good_list(site, transaction);
        self.some_replies(site, transaction);
    }

    fn good_list(&mut self, site: u64, transaction: u64) -> u64 {
        let count = self.random.below(ENTRIES);
        for entry in 0..count {
            let listed = self.listed(site);
            let words = [listed, self.mask(), self.random.below(2)];
            for (word, value) in words.into_iter().enumerate() {
                self.plant(site, transaction, 3 * entry + word as u64, value);
            }
        }
        self.say(format!("live {site} {transaction} 7 {count}"));
        count
    }

    /// One that the site has on record, or an unknown one.
    fn listed(&mut self, site: u64) -> u64 {
        let site = &self.probe.sites[site as usize - 1].site;
        let live = site.live.iter().map(|part| part.transaction);
        let known = live.chain(site.history.iter().map(|past| past.transaction));
        let known: Vec<u64> = known.collect();
        match self.random.chance(60) {
            true => self.random.pick(&known).unwrap_or(transaction_number(1, PLANTED)),
            false => self.transaction(),
        }
    }

    fn plant(&mut self, site: u64, transaction: u64, word: u64, value: u64) {
        self.say(format!("list {site} {transaction} {word} {value}"));
    }

    /// A word that no entry has, among those that count or behind them; then a
    /// good one, or a free place.
    fn bad_list(&mut self, site: u64, part: &Part) {
        let transaction = part.transaction;
        let count = self.good_list(site, transaction);
        let (entry, word) = (self.random.below(ENTRIES + 1), self.random.below(3));
        let bad = match word {
            0 => self.impossible(),
            1 => 1 << self.random.between(self.sites(), 63),
            _ => self.random.between(2, 9),
        };
        self.plant(site, transaction, 3 * entry + word, bad);
        self.some_calls(site, transaction);
        if self.random.chance(15) {
            self.say(format!("live {site} {transaction} 2 0"));
            return self.some_calls(site, transaction);
        }
        let good = if word == 0 { self.transaction() } else { self.random.below(2) };
        if entry < count {
            self.plant(site, transaction, 3 * entry + word, good);
        }
    }

    /// Another number for a part: a possible one stays, with a course of its own.
    fn number(&mut self, site: u64, part: &Part) {
        let transaction = part.transaction;
        if self.random.chance(40) {
            let number = self.transaction();
            self.say(format!("live {site} {transaction} 0 {number}"));
            return self.course(site, number);
        }
        let bad = self.impossible();
        self.say(format!("live {site} {transaction} 0 {bad}"));
        self.some_calls(site, bad);
        self.say(format!("live {site} {bad} 0 {transaction}"));
    }

    /// Another number in a slot of the history, remembered or not.
    fn past_number(&mut self, site: u64) {
        let state = &self.probe.sites[site as usize - 1].site;
        let install = self.random.between(1, state.installs.clamp(1, 40));
        let slot = (install - 1) % HISTORY as u64;
        let remembered =
            state.history.iter().find(|past| (past.install - 1) % HISTORY as u64 == slot);
        let before = remembered.map(|past| past.transaction);
        let possible = self.random.chance(40);
        let number = if possible { self.transaction() } else { self.impossible() };
        self.say(format!("past {site} {install} 0 {number}"));
        let (_, transaction) = self.any_part();
        self.some_calls(site, transaction);
        if let (Some(before), false) = (before, possible) {
            self.say(format!("past {site} {install} 0 {before}"));
        }
    }

    pub(super) fn some_calls(&mut self, site: u64, transaction: u64) {
        match self.random.below(5) {
            0 => drop(self.begin(site)),
            1 => {
                let first = self.table_of(site).keys(site).start;
                self.say(format!("read {site} {transaction} {first}"));
            }
            2 => drop(self.say(format!("install {site}"))),
            3 => self.search(site),
            _ => drop(self.say(format!("report {site}"))),
        }
        self.say(format!("commit {site} {transaction}"));
        self.message();
        self.say(format!("message {site}"));
    }

    /// A source of the merger, of a site that the house lacks too.
    fn poke_source(&mut self) {
        let site = self.random.between(1, SITES as u64);
        let log = self.probe.merger.merger.logs[site as usize - 1].clone();
        let queued = log.queue.len() as u64;
        let (field, value, before) = match self.random.below(4) {
            0 => (0, self.random.below(20), log.state),
            1 => (1, self.random.below(20), log.last.number),
            2 => (2, self.random.below(9), log.last.coordinator),
            _ => (3, queued + self.random.between(1, 18), queued),
        };
        self.say(format!("source {site} {field} {value}"));
        self.say("emit".to_string());
        self.merge();
        self.say("emit".to_string());
        if field == 3 || is_site(site, self.sites()) {
            self.say(format!("source {site} {field} {before}"));
        }
    }

    /// A slot of the history holds what a site remembers: each of them a number.
    pub(super) fn fill_the_history(&mut self, site: u64) {
        for install in 1..=HISTORY as u64 {
            let number = self.transaction();
            self.say(format!("past {site} {install} 0 {number}"));
        }
    }
}
