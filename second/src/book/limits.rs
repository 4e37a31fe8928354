//! What the book says of desks and of keys, beyond demand 3 (Q10.1 to Q10.5): from
//! the desk that a begin names, the argument of each JOIN, and the keys of each part.

use super::{claim, Book, Chapter, Checked, Homes, ARGUMENT};
use crate::desk::Desk;
use crate::house::messages;
use crate::sizes::*;
use crate::world::Call;

impl Chapter {
    pub(super) fn written_at(&self, site: u64, homes: &Homes) -> usize {
        self.writes.keys().filter(|&&key| homes.at(key) == site).count()
    }

    fn read_at(&self, site: u64, homes: &Homes) -> usize {
        self.reads.iter().filter(|&&key| homes.at(key) == site).count()
    }

    /// Distinct keys that it may write at each site; none before it began.
    pub(super) fn limit(&self) -> usize {
        self.desk.map_or(0, Desk::written_keys)
    }
}

impl Book {
    pub(super) fn begin_for(&mut self, desk: u64, transaction: u64) -> Checked {
        let begun = Desk::of(desk);
        claim(begun.is_some(), || format!("{transaction} began for desk {desk}"))?;
        self.chapters.entry(transaction).or_default().desk = begun;
        Ok(())
    }

    /// Each JOIN that is sent, and each that begins a part, says the desk that its
    /// transaction began for.
    pub(super) fn joins(&self, transaction: u64, words: &[u64]) -> Checked {
        let desk = self.chapters.get(&transaction).and_then(|chapter| chapter.desk);
        for join in messages(words) {
            let said = join[ARGUMENT];
            claim(desk.map(Desk::number) == Some(said), || {
                format!("{transaction} began for {desk:?}, and its JOIN says {said}")
            })?;
        }
        Ok(())
    }

    /// No part has more keys than it may have.
    pub(super) fn check_limits(&self, site: u64, transaction: u64) -> Checked {
        let chapter = &self.chapters[&transaction];
        let (read, wrote) =
            (chapter.read_at(site, &self.homes), chapter.written_at(site, &self.homes));
        let limit = chapter.limit();
        claim(read <= SET_KEYS && wrote <= limit, || {
            format!("{transaction} read {read} and wrote {wrote} keys at {site}, of {limit}")
        })
    }

    /// An 11 falls for a new key only (N4), and where the part has all the keys that
    /// it may have.
    pub(super) fn too_many_keys(&self, call: &Call) -> Checked {
        let due = match *call {
            Call::Write { site, transaction, key, .. } => {
                self.chapters.get(&transaction).is_some_and(|chapter| {
                    let known = chapter.writes.contains_key(&key);
                    !known && chapter.written_at(site, &self.homes) == chapter.limit()
                })
            }
            Call::Read { site, transaction, key } => {
                self.chapters.get(&transaction).is_some_and(|chapter| {
                    let known = chapter.writes.contains_key(&key) || chapter.reads.contains(&key);
                    !known && chapter.read_at(site, &self.homes) == SET_KEYS
                })
            }
            _ => false,
        };
        claim(due, || format!("{call:?} was refused 11"))
    }
}
