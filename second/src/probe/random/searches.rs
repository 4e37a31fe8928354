//! Random searches: snapshots before, within and beyond the history; keys that an
//! entry has, that none has, of another site and past the house.

use super::Maker;
use crate::sizes::*;

impl Maker {
    pub(super) fn search(&mut self, site: u64) {
        let place = site.clamp(1, self.sites()) as usize - 1;
        let state = &self.probe.sites[place].site;
        let ends = (state.forgotten(), state.installs);
        let versions: Vec<(u64, u64)> = (state.history.iter())
            .flat_map(|entry| entry.footprint.values.iter().map(|write| (entry.install, write.0)))
            .collect();
        let version = self.random.pick(&versions);
        let key = match (self.random.below(20), version) {
            (0, _) => self.random.below(KEYS),
            (1, _) => KEYS + self.random.below(256),
            (2..=13, Some((_, key))) => key,
            _ => self.key(site),
        };
        let snapshot = self.snapshot(ends, version.map(|(install, _)| install));
        self.say(format!("search {site} {snapshot} {key}"));
    }

    /// Around the last forgotten install, the last install or an entry; else anywhere.
    fn snapshot(&mut self, (forgotten, installs): (u64, u64), entry: Option<u64>) -> u64 {
        let around = match self.random.below(12) {
            0 => return 0,
            1 => return u64::MAX,
            2 => return self.random.word(),
            3 => return self.random.between(0, forgotten),
            4 => forgotten,
            5..=7 => entry.unwrap_or(forgotten),
            8 | 9 => return self.random.between(forgotten, installs),
            _ => installs,
        };
        around.wrapping_add(self.random.below(3)).wrapping_sub(1)
    }
}
