//! A gathered list as a caller hands it in: the words of its place, of which the
//! first entries count. What stands behind them is not looked at.

use crate::message::Entry;
use crate::sizes::*;

/// Words of the place of one list.
pub const LIST_WORDS: usize = ENTRY_WORDS * JOINED_ENTRIES;

#[derive(Clone, PartialEq, Eq, Debug)]
pub struct Listed {
    pub count: u64,
    words: Vec<u64>,
}

impl Listed {
    pub fn of(entries: &[Entry]) -> Self {
        let mut list = Listed { count: 0, words: vec![0; LIST_WORDS] };
        list.fill(entries);
        list
    }

    /// Writes entries over the first words.
    pub fn fill(&mut self, entries: &[Entry]) {
        for (words, entry) in self.words.chunks_exact_mut(ENTRY_WORDS).zip(entries) {
            words.copy_from_slice(&[
                entry.transaction,
                entry.participants,
                u64::from(entry.marked),
            ]);
        }
        self.count = entries.len() as u64;
    }

    pub fn poke(&mut self, place: u64, value: u64) {
        if place < LIST_WORDS as u64 {
            self.words[place as usize] = value;
        }
    }

    fn counted(&self) -> impl Iterator<Item = &[u64]> {
        let most = self.count.min(JOINED_ENTRIES as u64) as usize;
        self.words.chunks_exact(ENTRY_WORDS).take(most)
    }

    /// The entries that count, if a site can hold them.
    pub fn entries(&self) -> Option<Vec<Entry>> {
        let entry = |words: &[u64]| {
            let marked = words[2] == 1;
            let entry = Entry { transaction: words[0], participants: words[1], marked };
            (words[2] <= 1).then_some(entry)
        };
        let fits = self.count <= JOINED_ENTRIES as u64;
        fits.then(|| self.counted().map(entry).collect())?
    }

    /// Transaction, participants and mark of each entry that counts.
    pub fn is_possible(&self, sites: u64) -> bool {
        self.counted().all(|words| {
            is_transaction(words[0], sites) && is_mask(words[1], sites) && words[2] <= 1
        })
    }
}
