//! A subtransaction: the part of a transaction that lives at one site.

use crate::desk::Desk;
use crate::message::Entry;
use crate::record::Write;
use crate::sizes::*;
use crate::value::Value;

/// A set of keys, a bit for each.
#[derive(Clone, Copy, PartialEq, Eq, Debug, Default)]
pub struct KeySet([u64; KEYS as usize / 64]);

impl KeySet {
    fn place(key: u64) -> (usize, u64) {
        (key as usize / 64, 1 << (key % 64))
    }

    pub fn contains(&self, key: u64) -> bool {
        let (word, bit) = Self::place(key);
        self.0[word] & bit != 0
    }

    pub fn insert(&mut self, key: u64) {
        let (word, bit) = Self::place(key);
        self.0[word] |= bit;
    }

    pub fn len(&self) -> usize {
        self.0.iter().map(|word| word.count_ones() as usize).sum()
    }

    pub fn is_empty(&self) -> bool {
        self.0.iter().all(|&word| word == 0)
    }

    /// By key ascending.
    pub fn keys(&self) -> impl Iterator<Item = u64> + '_ {
        let used = (0..).zip(&self.0).filter(|(_, &word)| word != 0);
        used.flat_map(|(place, &word)| {
            let bits = (0..64).filter(move |bit| word & (1 << bit) != 0);
            bits.map(move |bit| 64 * place + bit)
        })
    }

    pub fn meets(&self, other: &KeySet) -> bool {
        self.0.iter().zip(&other.0).any(|(one, two)| one & two != 0)
    }
}

/// What a part read and wrote at its site.
#[derive(Clone, PartialEq, Eq, Debug, Default)]
pub struct Footprint {
    pub reads: KeySet,
    pub writes: KeySet,
    /// The same keys as `writes`, in the order in which they were first written.
    pub values: Vec<Write>,
}

impl Footprint {
    pub fn put(&mut self, key: u64, value: Value) {
        self.writes.insert(key);
        match self.values.iter_mut().find(|write| write.0 == key) {
            Some(write) => write.1 = value,
            None => self.values.push((key, value)),
        }
    }

    pub fn value(&self, key: u64) -> Option<Value> {
        if !self.writes.contains(key) {
            return None;
        }
        self.values.iter().find(|write| write.0 == key).map(|write| write.1)
    }

    /// By key ascending, as a record has them.
    pub fn by_key(&self) -> Vec<Write> {
        let mut writes = self.values.clone();
        writes.sort_unstable_by_key(|write| write.0);
        writes
    }

    /// C28: one wrote a key the other read or wrote.
    pub fn depends(&self, other: &Footprint) -> bool {
        self.writes.meets(&other.writes)
            || self.writes.meets(&other.reads)
            || self.reads.meets(&other.writes)
    }
}

/// How far a part has come.
#[derive(Clone, Copy, PartialEq, Eq, Debug)]
pub enum Stage {
    /// Takes reads and writes. `full`: a JOINED said 12.
    Active { full: bool },
    /// The commit is requested, or PREPARE taken; the list is made.
    Prepared,
    /// Participant that voted no; it keeps its keys until ABORT.
    VotedNo,
    /// Voted yes, in the queue.
    Open { mark: u64 },
    /// Committed, in the queue.
    Decided { number: u64 },
}

#[derive(Clone, PartialEq, Eq, Debug)]
pub struct Part {
    pub transaction: u64,
    /// Installs at this site when the part began.
    pub snapshot: u64,
    pub participants: u64,
    pub stage: Stage,
    /// At the coordinator, the sites whose reply of this round came: JOINED, then
    /// CONC, then VOTE.
    pub heard: u64,
    /// At the coordinator, its own list and those that came, one behind the other.
    pub gathered: Vec<Entry>,
    /// The desk that the transaction began for, as JOIN brings it to a participant.
    pub desk: Desk,
    pub footprint: Footprint,
}

impl Part {
    pub fn begin(transaction: u64, snapshot: u64, participants: u64, desk: Desk) -> Self {
        Part {
            transaction,
            snapshot,
            participants,
            stage: Stage::Active { full: false },
            heard: 0,
            gathered: Vec::new(),
            desk,
            footprint: Footprint::default(),
        }
    }

    pub fn is_active(&self) -> bool {
        matches!(self.stage, Stage::Active { .. })
    }

    /// Other participants whose reply of this round is still to come.
    pub fn outstanding(&self, own: u64) -> u64 {
        self.participants & !site_bit(own) & !self.heard
    }

    /// C24: PREPARE taken, or commit requested; a no included.
    pub fn is_prepared(&self) -> bool {
        !self.is_active()
    }

    /// Yes enters the queue: the lists are done with, and the round of votes begins.
    pub(super) fn enter_queue(&mut self, mark: u64) {
        self.stage = Stage::Open { mark };
        self.heard = 0;
        self.gathered.clear();
    }

    /// Place in the queue, for a part that entered it.
    pub fn queue_order(&self) -> Option<(u64, u64, u64)> {
        let first = match self.stage {
            Stage::Open { mark } => mark,
            Stage::Decided { number } => number,
            _ => return None,
        };
        Some((first, coordinator_of(self.transaction), self.transaction))
    }
}

/// An entry of the history: the `install`-th install of its site.
#[derive(Clone, PartialEq, Eq, Debug)]
pub struct Installed {
    pub install: u64,
    pub transaction: u64,
    pub participants: u64,
    pub footprint: Footprint,
}
