//! Records as words: parts and states of a log, merged records of the stream
//! (R1 to R6, Q3.6, Q12.3, Q12.6).

use crate::answer::{Pair, Refusal};
use crate::sizes::*;
use crate::table::Table;
use crate::value::Value;

mod at {
    pub const LENGTH: usize = 0;
    pub const KIND: usize = 1;
    pub const SITE: usize = 2;
    pub const NUMBER: usize = 3;
    pub const COORDINATOR: usize = 4;
    pub const TRANSACTION: usize = 5;
    pub const PARTICIPANTS: usize = 6;
    pub const COUNT: usize = 7;
    pub const OFFSET: usize = 8;
}

pub const PART: u64 = 1;
pub const STATE: u64 = 2;
pub const MERGED: u64 = 3;

/// A key and the value written to it.
pub type Write = (u64, Value);

/// What a part and a merged record carry.
#[derive(Clone, PartialEq, Eq, Debug)]
pub struct Save {
    pub pair: Pair,
    pub transaction: u64,
    pub participants: u64,
    /// By key ascending.
    pub writes: Vec<Write>,
}

/// What a log holds.
#[derive(Clone, PartialEq, Eq, Debug)]
pub enum LogRecord {
    Part { site: u64, save: Save },
    State { site: u64, number: u64 },
}

impl Save {
    /// Whether a site of the house can have logged it: the site takes part, and each key
    /// that was written lives there.
    pub fn is_part_of(&self, site: u64, table: &Table) -> bool {
        is_site(site, table.sites)
            && is_transaction(self.transaction, table.sites)
            && is_mask(self.participants, table.sites)
            && self.participants & site_bit(site) != 0
            && self.writes.iter().all(|&(key, _)| table.site_of(key) == Some(site))
    }
}

/// Reads a record of a log, as the merger of a house takes it.
pub fn parse_log(words: &[u64], table: &Table) -> Result<LogRecord, Refusal> {
    log_record(words, table).ok_or(Refusal::Impossible)
}

/// Reads a merged record, as a copy takes it: a copy serves houses of any size.
pub fn parse_merged(words: &[u64]) -> Result<Save, Refusal> {
    merged_record(words).ok_or(Refusal::Impossible)
}

fn log_record(words: &[u64], table: &Table) -> Option<LogRecord> {
    let header = words.get(..RECORD_HEADER)?;
    let site = header[at::SITE];
    if !is_site(site, table.sites) {
        return None;
    }
    match header[at::KIND] {
        PART => {
            let save = save(words, table.sites, SET_KEYS)?;
            save.is_part_of(site, table).then_some(LogRecord::Part { site, save })
        }
        STATE => {
            let bare = header[at::LENGTH] == RECORD_HEADER as u64
                && words.len() == RECORD_HEADER
                && header[at::COORDINATOR..].iter().all(|&word| word == 0);
            bare.then_some(LogRecord::State { site, number: header[at::NUMBER] })
        }
        _ => None,
    }
}

fn merged_record(words: &[u64]) -> Option<Save> {
    let header = words.get(..RECORD_HEADER)?;
    if header[at::KIND] != MERGED || header[at::SITE] != 0 {
        return None;
    }
    save(words, SITES as u64, MERGED_WRITES)
}

/// The words that a part and a merged record share. Q12.6: each value fits.
fn save(words: &[u64], sites: u64, most_writes: usize) -> Option<Save> {
    let (header, write_words) = words.split_at_checked(RECORD_HEADER)?;
    let (coordinator, transaction) = (header[at::COORDINATOR], header[at::TRANSACTION]);
    let (participants, count) = (header[at::PARTICIPANTS], header[at::COUNT]);
    let fits = header[at::LENGTH] == words.len() as u64
        && count <= most_writes as u64
        && write_words.len() == count as usize * WRITE_WORDS
        && header[at::OFFSET] == writes_offset(count as usize)
        && is_transaction(transaction, sites)
        && coordinator_of(transaction) == coordinator
        && is_mask(participants, sites);
    if !fits {
        return None;
    }
    let write = |words: &[u64]| (words[0], Value::new(words[1], words[2]));
    let writes: Vec<Write> = write_words.chunks_exact(WRITE_WORDS).map(write).collect();
    let ascending = writes.windows(2).all(|two| two[0].0 < two[1].0);
    let known = writes.last().is_none_or(|&(key, _)| key < KEYS);
    let fitting = writes.iter().all(|&(_, value)| value.fits());
    (ascending && known && fitting).then_some(Save {
        pair: Pair::new(header[at::NUMBER], coordinator),
        transaction,
        participants,
        writes,
    })
}

fn writes_offset(count: usize) -> u64 {
    if count == 0 {
        0
    } else {
        RECORD_HEADER as u64
    }
}

/// Writes a part (of `site`) or a merged record (`site` 0); answers its length.
pub fn write_save(out: &mut [u64], kind: u64, site: u64, save: &Save) -> usize {
    let length = RECORD_HEADER + save.writes.len() * WRITE_WORDS;
    let (header, write_words) = out[..length].split_at_mut(RECORD_HEADER);
    header[at::LENGTH] = length as u64;
    header[at::KIND] = kind;
    header[at::SITE] = site;
    header[at::NUMBER] = save.pair.number;
    header[at::COORDINATOR] = save.pair.coordinator;
    header[at::TRANSACTION] = save.transaction;
    header[at::PARTICIPANTS] = save.participants;
    header[at::COUNT] = save.writes.len() as u64;
    header[at::OFFSET] = writes_offset(save.writes.len());
    for (words, &(key, value)) in write_words.chunks_exact_mut(WRITE_WORDS).zip(&save.writes) {
        words.copy_from_slice(&[key, value.start, value.length]);
    }
    length
}

/// Writes a state record; answers its length.
pub fn write_state(out: &mut [u64], site: u64, number: u64) -> usize {
    let header = &mut out[..RECORD_HEADER];
    header.fill(0);
    header[at::LENGTH] = RECORD_HEADER as u64;
    header[at::KIND] = STATE;
    header[at::SITE] = site;
    header[at::NUMBER] = number;
    RECORD_HEADER
}
