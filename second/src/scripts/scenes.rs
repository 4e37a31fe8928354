//! Scenes: short plays that lead straight to states which random steps seldom reach.

use super::Generator;
use crate::sizes::*;

impl Generator {
    pub(super) fn scene(&mut self) {
        if self.random.chance(2) {
            return self.long_lists();
        }
        match self.random.below(11) {
            0 => self.wide_save(),
            1 => self.old_snapshot(),
            2 => self.seen_and_missed(),
            3 => self.crowd(),
            4 => self.flood(),
            5 => self.wide_sets(),
            6 => self.early_request(),
            7 | 8 => self.third_party(),
            9 => self.long_values(),
            _ => self.opposite_orders(),
        }
    }

    /// Begin, write, commit, install at one site.
    fn lone_save(&mut self, site: u64) {
        let Some(transaction) = self.begin(site) else { return };
        self.write_some(site, transaction, 70);
        self.tell("commit", &[transaction]);
        self.tell("install", &[site]);
    }

    fn write_some(&mut self, site: u64, transaction: u64, percent: u64) {
        if self.random.chance(percent) {
            let (key, value) = (self.key_of(site), self.fresh_value());
            self.write_at(site, transaction, key, value);
        }
    }

    fn read_some(&mut self, site: u64, transaction: u64, percent: u64) {
        if self.random.chance(percent) {
            let key = self.key_of(site);
            self.tell("read", &[site, transaction, key]);
        }
    }

    /// A transaction with parts at these sites, the first its coordinator.
    fn spanning(&mut self, sites: &[u64]) -> Option<u64> {
        let transaction = self.begin(sites[0])?;
        for &site in &sites[1..] {
            self.tell("enlist", &[transaction, site]);
        }
        self.take_all();
        Some(transaction)
    }

    /// A save over many sites, other messages in between.
    fn wide_save(&mut self) {
        let first = self.any_site();
        let mut sites = vec![first];
        for site in 1..=self.sites() {
            if site != first && self.random.chance(70) {
                sites.push(site);
            }
        }
        let Some(transaction) = self.spanning(&sites) else { return };
        for &site in &sites {
            self.read_some(site, transaction, 50);
            self.write_some(site, transaction, 60);
        }
        self.tell("commit", &[transaction]);
        if self.random.chance(70) {
            self.take_all();
            self.install_all();
        }
    }

    /// A part whose snapshot is forgotten: 8, and no by 19. The first 33
    /// installs after it do that; one fewer does not.
    fn old_snapshot(&mut self) {
        self.settle();
        let site = self.any_site();
        let other = self.other_site(site);
        let sites =
            if self.random.chance(50) || site == other { vec![site] } else { vec![other, site] };
        let Some(transaction) = self.spanning(&sites) else { return };
        self.write_some(site, transaction, 50);
        self.read_some(site, transaction, 50);
        self.lone_saves(site);
        self.read_some(site, transaction, 80);
        if self.random.chance(80) {
            let key = self.key_of(site);
            self.write_any(site, transaction, key);
        }
        self.tell("commit", &[transaction]);
        self.take_all();
        self.install_all();
    }

    /// Installs that push older ones off a site's history, or just do not.
    fn lone_saves(&mut self, site: u64) {
        for _ in 0..self.random.between(31, 34) {
            self.lone_save(site);
        }
    }

    /// A save over two sites that is installed at the first only.
    fn half_installed(&mut self, first: u64, second: u64) {
        let Some(saved) = self.spanning(&[first, second]) else { return };
        self.write_some(first, saved, 80);
        self.write_some(second, saved, 80);
        self.read_some(second, saved, 30);
        self.tell("commit", &[saved]);
        self.take_all();
        self.install_at(first);
    }

    /// One transaction sees another at one site and misses it at a second:
    /// no by 18 where they touch, no by 19 where it is off record at either.
    fn seen_and_missed(&mut self) {
        let seen = self.any_site();
        let missed = self.other_site(seen);
        if seen == missed {
            return;
        }
        self.settle();
        // The later transaction begins at the missing site before the install
        // there, and at the seeing site after it.
        let coordinator_misses = self.random.chance(50);
        let early = if coordinator_misses { self.begin(missed) } else { None };
        self.half_installed(seen, missed);
        if self.random.chance(50) {
            self.lone_saves(seen);
            if self.random.chance(50) {
                self.half_installed(seen, missed);
            }
        }
        let (second, late) =
            if coordinator_misses { (seen, early) } else { (missed, self.begin(seen)) };
        let Some(late) = late else { return };
        self.tell("enlist", &[late, second]);
        self.take_all();
        if self.random.chance(60) {
            self.install_all();
        }
        for site in [seen, missed] {
            self.read_some(site, late, 60);
            self.read_some(site, late, 60);
            self.write_some(site, late, 20);
        }
        if self.random.chance(25) {
            self.install_all();
            self.lone_saves(missed);
        }
        self.tell("commit", &[late]);
        self.take_all();
        self.install_all();
    }

    /// A third site's transaction meets one whose decision is late at one of
    /// its sites: there it is listed at whatever stage it has, at the other it
    /// is installed (18, or 19 once forgotten) or dropped (19 once anything is).
    fn third_party(&mut self) {
        if self.sites() < 3 {
            return;
        }
        self.settle();
        let ahead = self.any_site();
        let behind = ahead % self.sites() + 1;
        let third = behind % self.sites() + 1;
        if self.random.chance(40) {
            self.lone_saves(ahead);
        }
        self.late_decision(ahead, behind);
        let late = (ahead, behind);
        if self.random.chance(30) {
            self.lone_saves(ahead);
        }
        let Some(other) = self.begin(third) else { return };
        self.tell("enlist", &[other, ahead]);
        self.tell("enlist", &[other, behind]);
        self.take_all_but(late);
        self.read_some(ahead, other, 50);
        self.read_some(behind, other, 50);
        self.tell("commit", &[other]);
        self.take_all_but(late);
        self.take_all();
        self.install_all();
    }

    /// A save over two sites, ended at the first; the second does not know.
    fn late_decision(&mut self, ahead: u64, behind: u64) {
        let Some(saved) = self.spanning(&[ahead, behind]) else { return };
        self.write_some(ahead, saved, 70);
        self.write_some(behind, saved, 70);
        if self.random.chance(30) {
            self.lone_saves(behind);
        }
        self.tell("commit", &[saved]);
        for _ in 0..self.random.between(1, 2) {
            self.tell("take", &[ahead, behind]);
            self.take_all_but((ahead, behind));
        }
        if self.random.chance(30) {
            self.tell("abandon", &[saved]);
        }
        self.install_at(ahead);
    }

    /// A full live table: begin is refused 12, JOIN answered 12, and the
    /// commit request then aborts 12.
    fn crowd(&mut self) {
        let site = self.any_site();
        let other = self.other_site(site);
        while self.begin(site).is_some() {}
        if self.random.chance(50) {
            self.no_desk(site);
        }
        if site == other {
            return;
        }
        let Some(transaction) = self.begin(other) else { return };
        self.tell("enlist", &[transaction, site]);
        if self.random.chance(30) {
            self.tell("commit", &[transaction]);
        }
        self.take_all();
        self.write_some(other, transaction, 50);
        self.tell("commit", &[transaction]);
        if self.random.chance(60) {
            self.settle();
        }
    }

    /// More parts of one site than the merger queues.
    fn flood(&mut self) {
        let site = self.any_site();
        for _ in 0..QUEUED_PARTS + 2 {
            self.lone_save(site);
        }
        for _ in 0..QUEUED_PARTS + 4 {
            self.tell("merge", &[site]);
        }
        self.tell("report", &[site]);
        for _ in 0..self.random.between(0, 4) {
            self.tell("emit", &[]);
        }
    }

    /// Two readers see two independent saves in opposite orders: the base
    /// allows it.
    fn opposite_orders(&mut self) {
        let one = self.any_site();
        let two = self.other_site(one);
        let (Some(first), Some(second)) = (self.begin(one), self.begin(two)) else { return };
        self.lone_save(one);
        self.lone_save(two);
        self.tell("enlist", &[first, two]);
        self.tell("enlist", &[second, one]);
        self.take_all();
        for transaction in [first, second] {
            self.read_some(one, transaction, 80);
            self.read_some(two, transaction, 80);
        }
        self.tell("commit", &[first]);
        self.tell("commit", &[second]);
        self.take_all();
        self.install_all();
    }

    /// A commit request before the JOINED, while another save passes the site
    /// that has not begun its part yet: 7, and later 18 where they touch.
    fn early_request(&mut self) {
        if self.sites() < 3 {
            return;
        }
        self.settle();
        let third = self.any_site();
        let missed = third % self.sites() + 1;
        let seen = missed % self.sites() + 1;
        let Some(saved) = self.spanning(&[third, missed, seen]) else { return };
        self.write_some(missed, saved, 80);
        self.write_some(seen, saved, 80);
        let Some(early) = self.begin(missed) else { return };
        self.read_some(missed, early, 80);
        self.read_some(missed, early, 80);
        self.tell("enlist", &[early, seen]);
        self.tell("commit", &[early]);
        self.tell("commit", &[saved]);
        self.take_all_but((missed, seen));
        self.install_all();
        self.take_all();
        self.read_some(seen, early, 60);
        self.tell("commit", &[early]);
        self.take_all();
        self.install_all();
    }

    /// Every site has a full history after the snapshot and 15 others prepared:
    /// the longest lists.
    fn long_lists(&mut self) {
        self.settle();
        let sites: Vec<u64> = (1..=self.sites()).collect();
        let Some(transaction) = self.spanning(&sites) else { return };
        for &site in &sites {
            for key in self.range(site).take(2) {
                self.tell("read", &[site, transaction, key]);
            }
            for _ in 0..HISTORY {
                self.lone_save(site);
            }
            while let Some(other) = self.begin(site) {
                self.write_some(site, other, 30);
                self.tell("commit", &[other]);
            }
        }
        self.tell("commit", &[transaction]);
        self.take_all();
        self.install_all();
    }
}
