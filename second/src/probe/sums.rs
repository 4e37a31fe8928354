//! Checksums of words and of states, below the prime 2^32 − 5. A state's is over
//! what the rules fix: parts and history as sets, nothing that a stage does not use.

use crate::answer::Pair;
use crate::copy::Copy;
use crate::record::{self, Save};
use crate::site::{Footprint, Installed, Part, Site, Stage};
use crate::sizes::*;
use crate::table::Table;
use crate::value::Value;

const PRIME: u64 = 4_294_967_291;
const FACTOR: u64 = 69_069;

/// Words of one site's queue at the merger, a place for each part.
pub const SITE_QUEUE: usize = QUEUED_PARTS * PART_BUFFER;

pub fn more(sum: u64, word: u64) -> u64 {
    let low = (sum % PRIME * FACTOR + word % (1 << 32)) % PRIME;
    (low * FACTOR + (word >> 32)) % PRIME
}

pub fn words(sum: u64, words: &[u64]) -> u64 {
    words.iter().fold(sum, |sum, &word| more(sum, word))
}

/// Of each value its start, then its length.
fn values(sum: u64, values: &[Value]) -> u64 {
    values.iter().fold(sum, |sum, value| words(sum, &value.words()))
}

fn together(sums: impl Iterator<Item = u64>) -> u64 {
    sums.fold(0, |sum, one| (sum + one) % PRIME)
}

fn keys(sum: u64, footprint: &Footprint) -> u64 {
    let read = together(footprint.reads.keys().map(|key| more(1, key)));
    let wrote = footprint.values.iter().map(|&(key, value)| words(more(2, key), &value.words()));
    let wrote = together(wrote);
    more(more(sum, read), wrote)
}

/// A part's stage by number, its mark or commit number, the sites heard in this
/// round, and 12 once a JOINED said so.
pub fn course(part: &Part, own: u64) -> (u64, u64, u64, u64) {
    let coordinates = coordinator_of(part.transaction) == own;
    let heard = if coordinates { part.heard } else { 0 };
    match part.stage {
        Stage::Active { full } => (1, 0, heard, if coordinates && full { 12 } else { 0 }),
        Stage::Prepared => (2, 0, heard, 0),
        Stage::Open { mark } => (3, mark, heard, 0),
        Stage::Decided { number } => (4, number, 0, 0),
        Stage::VotedNo => (5, 0, 0, 0),
    }
}

fn part(part: &Part, own: u64) -> u64 {
    let (stage, number, heard, reason) = course(part, own);
    let joined = part.is_active() && coordinator_of(part.transaction) != own;
    let mask = if joined { 0 } else { part.participants };
    let desk = part.desk.number();
    let fields = [part.transaction, part.snapshot, stage, mask, number, heard, reason, desk];
    keys(words(3, &fields), &part.footprint)
}

fn installed(past: &Installed) -> u64 {
    let fields = [past.install, past.transaction, past.participants];
    keys(words(4, &fields), &past.footprint)
}

/// Number of sites, then the eight first keys.
fn house(table: &Table) -> u64 {
    words(table.sites, &table.firsts)
}

pub fn site(site: &Site) -> u64 {
    let counts = [site.own, site.clock, site.serial, site.installs];
    let sum = words(words(words(house(&site.table), &counts), &site.sent), &site.taken);
    let live = together(site.live.iter().map(|one| part(one, site.own)));
    let past = together(site.history.iter().map(installed));
    values(more(more(sum, live), past), &site.base)
}

/// The words of a site's queue, unused ones 0.
pub fn queue_words<'a>(site: u64, queue: impl Iterator<Item = &'a Save>) -> Vec<u64> {
    let mut place_words = vec![0; SITE_QUEUE];
    for (place, save) in place_words.chunks_exact_mut(PART_BUFFER).zip(queue) {
        record::write_save(place, record::PART, site, save);
    }
    place_words
}

/// What stands at a source of the merger, and the words of its queue.
pub struct Source {
    pub state: u64,
    pub last: Pair,
    pub queued: u64,
    pub words: Vec<u64>,
}

/// One word more than the queues have is there to be lent.
pub fn merger(table: &Table, sources: &[Source]) -> u64 {
    let sum = sources.iter().fold(house(table), |sum, one| {
        words(sum, &[one.state, one.last.number, one.last.coordinator, one.queued])
    });
    let queues = sources.iter().fold(sum, |sum, one| words(sum, &one.words));
    more(queues, 0)
}

pub fn copy(copy: &Copy) -> u64 {
    values(words(0, &[copy.last.number, copy.last.coordinator]), &copy.values)
}
