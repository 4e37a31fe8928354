//! Random tables: first keys lent at starts, good and bad and at other lengths, and first
//! keys of states poked. A bad poke is set back after some calls.

use super::super::lent::{BASE, LISTS, QUEUES};
use super::Maker;
use crate::site::Site;
use crate::sizes::*;
use crate::table::Table;

impl Maker {
    /// The first lines: a table and a house of it. Nothing has begun, so that any site
    /// may start once more, with another table too.
    pub(super) fn house(&mut self) {
        let sites = self.sites();
        if self.random.chance(20) {
            let bad = self.random.bad_firsts(sites);
            self.lend(&bad);
            self.say(format!("house {sites}"));
        }
        let firsts = self.table.firsts;
        self.lend(&firsts[..sites as usize]);
        self.say(format!("house {sites}"));
        if self.random.chance(20) {
            for _ in 0..self.random.between(1, 6) {
                self.bad_start();
            }
            let other = self.random.firsts(sites);
            self.lend(&other);
            let site = self.random.between(1, sites);
            self.say(format!("start {site} {sites} {site}"));
            self.lend(&firsts[..sites as usize]);
        }
    }

    /// Sets the first keys that differ from those lent so far.
    fn lend(&mut self, firsts: &[u64]) {
        for (place, &first) in firsts.iter().enumerate() {
            if self.probe.table.words[place] != first {
                self.say(format!("table {} {first}", place + 1));
            }
        }
    }

    /// The site's own table where it is one, else the one that the house began with.
    pub(super) fn table_of(&self, site: u64) -> Table {
        let handed = self.probe.sites.get(site.wrapping_sub(1) as usize);
        let own = handed.map(|handed| handed.site.table);
        let fits = |table: &Table| table.is_possible() && is_site(site, table.sites);
        own.filter(fits).unwrap_or(self.table)
    }

    pub(super) fn key(&mut self, site: u64) -> u64 {
        let table = self.table_of(site);
        self.random.key(&table, site, self.keys)
    }

    pub(super) fn tables(&mut self, site: u64) {
        match self.random.below(8) {
            0..=2 => self.bad_start(),
            3 => self.open(),
            4 | 5 if is_site(site, self.sites()) => self.bad_table_at(site),
            6 if is_site(site, self.sites()) => self.grow(site),
            _ => self.table_of_the_merger(),
        }
    }

    /// A start that is refused: a bad table, another count of first keys, a lent length
    /// or a number of the house that is wrong, or several of these.
    fn bad_start(&mut self) {
        let count = self.sites();
        let sites = if self.random.chance(80) { count } else { self.random.between(0, 10) };
        let own = if self.random.chance(80) { 1 } else { self.random.between(0, 9) };
        let good = self.random.chance(30);
        let firsts = if good { self.random.firsts(count) } else { self.random.bad_firsts(count) };
        self.lend(&firsts);
        let length = match self.random.below(4) {
            0 => self.random.below(11),
            _ => sites,
        };
        self.say(format!("tables {length}"));
        let (verb, size) =
            [("base", BASE), ("lists", LISTS), ("queues", QUEUES)][self.random.below(3) as usize];
        let short = self.random.chance(15);
        if short {
            self.say(format!("{verb} {}", size - 1));
        }
        let site = self.random.between(1, count);
        if Site::start(sites, self.probe.table.firsts(sites), own).is_err() {
            self.say(format!("start {site} {sites} {own}"));
            self.say(format!("open {sites}"));
            self.merged_anew();
        }
        if short {
            self.say(format!("{verb} {size}"));
        }
        self.say(format!("tables {count}"));
    }

    /// A merger of the house with a good table, mostly the one that the house has.
    fn open(&mut self) {
        let (sites, firsts) = (self.sites(), self.table.firsts);
        if self.random.chance(30) {
            let other = self.random.firsts(sites);
            self.lend(&other);
        } else {
            self.lend(&firsts[..sites as usize]);
        }
        self.say(format!("open {sites}"));
        self.merged_anew();
    }

    /// Where the merger is fresh, each log begins with its first record.
    fn merged_anew(&mut self) {
        let logs = &self.probe.merger.merger.logs;
        if logs.iter().all(|log| *log == Default::default()) {
            self.merged.fill(0);
        }
    }

    /// A field, a value with which no table is possible, and the value before.
    fn fault(&mut self, table: &Table) -> Option<(u64, u64, u64)> {
        let place = self.random.below(SITES as u64) as usize;
        let before = if place == 0 { 0 } else { table.firsts[place - 1] };
        let value = match self.random.below(6) {
            0 => before,
            1 => before.saturating_sub(1),
            2 => [KEYS, KEYS + 1, u64::MAX][self.random.below(3) as usize],
            3 => table.firsts.get(place + 1).copied().unwrap_or(KEYS),
            4 => self.random.below(KEYS),
            _ => table.firsts[place] + 1,
        };
        let mut poked = *table;
        if self.random.chance(15) {
            poked.sites = self.random.below(10);
            return (!poked.is_possible()).then_some((0, poked.sites, table.sites));
        }
        poked.firsts[place] = value;
        let field = 31 + place as u64;
        (!poked.is_possible()).then_some((field, value, table.firsts[place]))
    }

    fn bad_table_at(&mut self, site: u64) {
        let table = self.probe.sites[site as usize - 1].site.table;
        let Some((field, value, before)) = self.fault(&table) else { return };
        self.say(format!("site {site} {field} {value}"));
        let (_, transaction) = self.any_part();
        for _ in 0..self.random.between(1, 3) {
            self.some_calls(site, transaction);
        }
        self.say(format!("site {site} {field} {before}"));
        self.some_calls(site, transaction);
    }

    /// A good table in which the site has more keys stays; then keys on both sides of its
    /// edges. Fewer keys are not tried: what a free place keeps is left free.
    fn grow(&mut self, site: u64) {
        if !self.random.chance(self.poked) {
            return self.bad_table_at(site);
        }
        let table = self.probe.sites[site as usize - 1].site.table;
        let keys = table.keys(site);
        let (field, value) = if site > 1 && self.random.chance(50) {
            let lowest = table.keys(site - 1).start + 1;
            (30 + site, self.random.between(lowest, keys.start))
        } else if site < table.sites {
            (31 + site, self.random.between(keys.end, table.keys(site + 1).end - 1))
        } else {
            return;
        };
        self.say(format!("site {site} {field} {value}"));
        let (_, transaction) = self.any_part();
        for edge in [keys.start.wrapping_sub(1), keys.start, keys.end - 1, keys.end, value] {
            self.write(site, transaction, edge);
            self.say(format!("search {site} 0 {edge}"));
        }
    }

    /// A table of the merger, bad or only another, and set back after some records.
    fn table_of_the_merger(&mut self) {
        let table = self.probe.merger.merger.table;
        if let Some((field, value, before)) = self.fault(&table) {
            self.say(format!("merger {field} {value}"));
            self.some_records();
            self.say(format!("merger {field} {before}"));
            return self.some_records();
        }
        let other = self.random.firsts(table.sites);
        self.set_merger(&other);
        self.some_records();
        self.set_merger(&table.firsts[..other.len()]);
    }

    fn set_merger(&mut self, firsts: &[u64]) {
        for (field, first) in (31..).zip(firsts) {
            self.say(format!("merger {field} {first}"));
        }
    }

    fn some_records(&mut self) {
        for _ in 0..self.random.between(1, 3) {
            self.merge();
        }
        self.say("emit".to_string());
    }
}
