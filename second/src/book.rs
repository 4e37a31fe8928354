//! The book of demand 3 (B1 to B26): fed calls, answers and written
//! words, it says what the copies must hold and what transactions may have seen.
//! It looks into no state but the copies' values, which it checks.

mod homes;
mod limits;
mod values;

use std::collections::{BTreeMap, HashMap, HashSet};

use crate::answer::{Decision, Pair, Refusal};
use crate::copy::Copy;
use crate::desk::Desk;
use crate::house::messages;
use crate::record::Write;
use crate::site::Found;
use crate::sizes::*;
use crate::table;
use crate::value::{Value, FRESH};
use crate::world::{Answer, Call, World};
use homes::Homes;

/// Positions of message words that the book reads.
const KIND: usize = 1;
const TRANSACTION: usize = 5;
const ARGUMENT: usize = 7;
const JOIN: u64 = 1;

#[derive(Clone, Debug, Default)]
struct Chapter {
    /// Moments at which its part began, and was installed, at each site.
    begun: [Option<u64>; SITES],
    installed: [Option<u64>; SITES],
    /// Whether its part, at each site, takes no more reads and writes; was aborted.
    closed: [bool; SITES],
    aborted: [bool; SITES],
    writes: BTreeMap<u64, Value>,
    /// Keys that entered the set of keys read, and all keys used.
    reads: HashSet<u64>,
    used: HashSet<u64>,
    pair: Option<Pair>,
    /// The desk that it began for, as the call said.
    desk: Option<Desk>,
}

impl Chapter {
    fn missed_or_saw(&self, other: &Chapter) -> (bool, bool) {
        let (mut missed, mut saw) = (false, false);
        for site in 0..SITES {
            if let (Some(began), Some(_)) = (self.begun[site], other.begun[site]) {
                let seen = other.installed[site].is_some_and(|installed| installed < began);
                saw |= seen;
                missed |= !seen;
            }
        }
        (missed, saw)
    }

    fn touches(&self, other: &Chapter) -> bool {
        self.writes.keys().any(|key| other.used.contains(key))
            || other.writes.keys().any(|key| self.used.contains(key))
    }
}

#[derive(Clone, Debug)]
struct Shelf {
    last: Option<Pair>,
    expected: Vec<Value>,
}

/// Installs of one site, oldest first, with the writes there.
type Installs = Vec<(u64, Vec<Write>)>;

#[derive(Clone, Debug)]
pub struct Book {
    moment: u64,
    chapters: HashMap<u64, Chapter>,
    committed: BTreeMap<Pair, u64>,
    installs: Vec<Installs>,
    /// How many installs each site counts when the book begins.
    counted: [u64; SITES],
    shelves: Vec<Shelf>,
    homes: Homes,
}

impl Default for Book {
    /// The book of a house of eight with the table 0, 256 and so on.
    fn default() -> Self {
        let shelf = Shelf { last: None, expected: vec![FRESH; KEYS as usize] };
        Book {
            moment: 0,
            chapters: HashMap::new(),
            committed: BTreeMap::new(),
            installs: vec![Vec::new(); SITES],
            counted: [0; SITES],
            shelves: vec![shelf; COPIES],
            homes: Homes::of(&table::even(SITES as u64)),
        }
    }
}

type Checked = Result<(), String>;

fn claim(holds: bool, otherwise: impl FnOnce() -> String) -> Checked {
    if holds {
        Ok(())
    } else {
        Err(otherwise())
    }
}

impl Book {
    /// The book of a house whose counts may begin near their ends.
    pub fn of(world: &World) -> Self {
        let table = &world.merger.table;
        let homes = Homes::of(&table.firsts[..table.sites as usize]);
        let mut book = Book { homes, ..Book::default() };
        for (counted, site) in book.counted.iter_mut().zip(&world.sites) {
            *counted = site.installs;
        }
        book
    }

    pub fn committed(&self) -> usize {
        self.committed.len()
    }

    /// Enters an accepted call; refused ones leave the book, which is asked whether
    /// an 11, a 29, and what is said of a key, was due. An `Err` names the claim that broke.
    pub fn enter(
        &mut self,
        call: &Call,
        answer: &Result<Answer, Refusal>,
        written: &[u64],
        copies: &[Copy],
    ) -> Checked {
        self.homes.check(call, answer, written)?;
        self.check_values(call, answer)?;
        let answer = match answer {
            Ok(answer) => answer,
            Err(Refusal::TooManyKeys) => return self.too_many_keys(call),
            Err(_) => return Ok(()),
        };
        self.moment += 1;
        self.follow(call, answer);
        match (*call, *answer) {
            (Call::Begin { site, desk }, Answer::Begun(transaction)) => {
                self.begin_for(desk, transaction)?;
                self.begin(site, transaction)?;
            }
            (Call::Enlist { transaction, .. }, _) => self.joins(transaction, written)?,
            (Call::Read { site, transaction, key }, Answer::Value(value)) => {
                self.read(site, transaction, key, value)?;
            }
            (Call::Search { site, snapshot, key }, Answer::Found(found)) => {
                self.search(site, snapshot, key, found)?;
            }
            (Call::Write { site, transaction, key, value }, _) => {
                self.write(site, transaction, key, value)?;
            }
            (Call::Commit { transaction, .. }, _) => self.decide(transaction, answer)?,
            (Call::Message { site, words }, _) => self.message(site, words, answer, written)?,
            (Call::Install { site }, Answer::Installed(done)) => self.install(site, done.pair)?,
            (Call::Replay { copy, .. }, Answer::Replayed(pair)) => self.replay(copy, pair)?,
            (Call::Value { copy, key }, Answer::CopyValue(value, pair)) => {
                self.value(copy, key, (value, pair))?;
            }
            _ => {}
        }
        self.check_copies(copies)
    }

    fn begin(&mut self, site: u64, transaction: u64) -> Checked {
        let begun = &mut self.chapters.entry(transaction).or_default().begun[site as usize - 1];
        claim(begun.is_none(), || format!("{transaction} began twice at {site}"))?;
        *begun = Some(self.moment);
        self.recheck(transaction)
    }

    fn message(&mut self, site: u64, words: &[u64], answer: &Answer, written: &[u64]) -> Checked {
        let transaction = words[TRANSACTION];
        if words[KIND] == JOIN && messages(written).any(|reply| reply[ARGUMENT] == 0) {
            self.joins(transaction, words)?;
            self.begin(site, transaction)?;
        }
        self.decide(transaction, answer)
    }

    fn decide(&mut self, transaction: u64, answer: &Answer) -> Checked {
        let Some(Decision::Commit(number)) = answer.decision() else { return Ok(()) };
        let pair = Pair::new(number, coordinator_of(transaction));
        let chapter = self.chapters.entry(transaction).or_default();
        claim(chapter.pair.is_none(), || format!("{transaction} committed twice"))?;
        chapter.pair = Some(pair);
        let same = self.committed.insert(pair, transaction);
        claim(same.is_none(), || format!("{pair:?} was given twice"))?;
        for copy in 0..COPIES {
            if self.shelves[copy].last.is_some_and(|last| pair <= last) {
                self.reshelve(copy);
            }
        }
        self.recheck(transaction)
    }

    fn install(&mut self, site: u64, pair: Pair) -> Checked {
        let transaction = self.committed.get(&pair).copied();
        let transaction = transaction.ok_or(format!("{pair:?} installed and not committed"))?;
        let chapter = self.chapters.entry(transaction).or_default();
        let installed = &mut chapter.installed[site as usize - 1];
        claim(installed.is_none(), || format!("{transaction} installed twice at {site}"))?;
        *installed = Some(self.moment);
        let writes = chapter.writes.iter().filter(|(&key, _)| self.homes.at(key) == site);
        let writes = writes.map(|(&key, &value)| (key, value)).collect();
        self.installs[site as usize - 1].push((self.moment, writes));
        self.recheck(transaction)
    }

    fn write(&mut self, site: u64, transaction: u64, key: u64, value: Value) -> Checked {
        let chapter = self.chapters.entry(transaction).or_default();
        chapter.used.insert(key);
        chapter.writes.insert(key, value);
        self.check_limits(site, transaction)?;
        self.recheck(transaction)
    }

    /// Beyond demand 3: a read gives the own write, else what the installs
    /// before its part began left. Only the latter enters the set of keys read (C10).
    fn read(&mut self, site: u64, transaction: u64, key: u64, value: Value) -> Checked {
        let chapter = self.chapters.entry(transaction).or_default();
        chapter.used.insert(key);
        if !chapter.writes.contains_key(&key) {
            chapter.reads.insert(key);
        }
        let began = chapter.begun[site as usize - 1];
        let began = began.ok_or(format!("{transaction} reads at {site} without a part"))?;
        let left = || {
            let seen = self.installs[site as usize - 1].iter().rev();
            seen.skip_while(|(moment, _)| *moment > began)
                .find_map(|(_, writes)| writes.iter().find(|write| write.0 == key))
                .map_or(FRESH, |write| write.1)
        };
        let due = chapter.writes.get(&key).copied().unwrap_or_else(left);
        claim(due == value, || format!("{transaction} read {value} at {key}, {due} is due"))?;
        self.check_limits(site, transaction)?;
        self.recheck(transaction)
    }

    /// Beyond demand 3 (Q5.1 to Q5.3): a search gives what the installs within its
    /// snapshot left, and how many of the last 32 it looked at. Where a later install is
    /// forgotten it looks at none, and its value is no version of the snapshot.
    fn search(&self, site: u64, snapshot: u64, key: u64, found: Found) -> Checked {
        let site = site as usize - 1;
        let installs = &self.installs[site];
        let within =
            snapshot.saturating_sub(self.counted[site]).min(installs.len() as u64) as usize;
        let forgotten = installs.len().saturating_sub(HISTORY);
        let version = |place: usize| installs[place].1.iter().find(|write| write.0 == key);
        let hit = (0..within).rev().find(|&place| version(place).is_some());
        let left = hit.and_then(version).map_or(FRESH, |write| write.1);
        let oldest = hit.map_or(forgotten, |place| place.max(forgotten));
        let looked_at = within.saturating_sub(oldest) as u64;
        let right = found.looked_at == looked_at && (within < forgotten || found.value == left);
        claim(right, || format!("{key} searched at {snapshot}: {found:?}, {left} {looked_at} due"))
    }

    /// Claim A: the last pair is a committed one.
    fn replay(&mut self, copy: u64, pair: Pair) -> Checked {
        claim(self.committed.contains_key(&pair), || format!("A: {pair:?} is not committed"))?;
        let copy = copy as usize - 1;
        let shelf = &mut self.shelves[copy];
        match shelf.last.replace(pair) {
            Some(last) if last < pair => {
                let later = self.committed.range(last..=pair).skip(1);
                for transaction in later.map(|(_, transaction)| transaction) {
                    for (&key, &value) in &self.chapters[transaction].writes {
                        shelf.expected[key as usize] = value;
                    }
                }
            }
            _ => self.reshelve(copy),
        }
        Ok(())
    }

    fn value(&self, copy: u64, key: u64, answer: (Value, Pair)) -> Checked {
        let shelf = &self.shelves[copy as usize - 1];
        let due = (shelf.expected[key as usize], shelf.last.unwrap_or_default());
        claim(due == answer, || format!("value {key} of copy {copy}: {due:?} due"))
    }

    /// The writes of the committed up to a copy's last pair, over fresh values.
    fn reshelve(&mut self, copy: usize) {
        let shelf = &mut self.shelves[copy];
        shelf.expected.fill(FRESH);
        let Some(last) = shelf.last else { return };
        for transaction in self.committed.range(..=last).map(|(_, transaction)| transaction) {
            for (&key, &value) in &self.chapters[transaction].writes {
                shelf.expected[key as usize] = value;
            }
        }
    }

    /// Claim A, all copies and keys.
    fn check_copies(&self, copies: &[Copy]) -> Checked {
        for (copy, shelf) in copies.iter().zip(&self.shelves) {
            claim(copy.values == shelf.expected, || {
                let key = (0..KEYS as usize).find(|&key| copy.values[key] != shelf.expected[key]);
                format!("A: a copy at {:?} differs at key {key:?}", shelf.last)
            })?;
        }
        Ok(())
    }

    /// Claims B and C between a transaction and every other.
    fn recheck(&self, transaction: u64) -> Checked {
        let one = &self.chapters[&transaction];
        for (number, other) in &self.chapters {
            if *number == transaction {
                continue;
            }
            self.check_writers(one, other)?;
            for (reader, seen) in [(one, other), (other, one)] {
                let split = reader.pair.is_some() && reader.missed_or_saw(seen) == (true, true);
                claim(!(split && reader.touches(seen)), || {
                    format!("C: {transaction} and {number} saw and missed")
                })?;
            }
        }
        Ok(())
    }

    /// Claim B: of two committed writers of a key the later began after the
    /// earlier was installed, at that key's site.
    fn check_writers(&self, one: &Chapter, other: &Chapter) -> Checked {
        let (Some(pair), Some(other_pair)) = (one.pair, other.pair) else { return Ok(()) };
        let (earlier, later) = if pair < other_pair { (one, other) } else { (other, one) };
        for key in earlier.writes.keys().filter(|key| later.writes.contains_key(key)) {
            let site = self.homes.at(*key) as usize - 1;
            let before = match (earlier.installed[site], later.begun[site]) {
                (Some(installed), Some(began)) => installed < began,
                _ => false,
            };
            claim(before, || format!("B: {pair:?} and {other_pair:?} overlap at key {key}"))?;
        }
        Ok(())
    }

    /// Claims B and C between all pairs, once more at the end.
    pub fn close(&self) -> Checked {
        self.chapters.keys().try_for_each(|&transaction| self.recheck(transaction))
    }
}
