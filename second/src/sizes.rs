//! Sizes of a house (S1 to S18, Q12.3, Q12.4), each a named limit.

pub const SITES: usize = 8;
pub const KEYS: u64 = 2_048;
pub const LIVE: usize = 16;
/// Limit of the read set of one part, and of the write set of one for the house.
pub const SET_KEYS: usize = 16;
/// Limit of the write set of a part for the proofing desk (Q10.4).
pub const PROOFING_KEYS: usize = 4;
pub const HISTORY: usize = 32;
/// Parts that the merger queues for one site.
pub const QUEUED_PARTS: usize = 16;
pub const COPIES: usize = 8;
pub const LAST_SERIAL: u64 = (1 << 32) - 1;

/// Entries of one CONC: the other live parts and the whole history.
pub const LIST_ENTRIES: usize = LIVE - 1 + HISTORY;
/// Entries of one CERT: a list from every site.
pub const JOINED_ENTRIES: usize = SITES * LIST_ENTRIES;

pub const MESSAGE_HEADER: usize = 10;
pub const ENTRY_WORDS: usize = 3;
pub const RECORD_HEADER: usize = 9;
/// A value's start and length (Q12.1).
pub const VALUE_WORDS: usize = 2;
/// A write in a record: the key, then the value (Q12.3).
pub const WRITE_WORDS: usize = 1 + VALUE_WORDS;

/// The longest CERT, to every other site.
pub const SEND_BUFFER: usize = (SITES - 1) * (MESSAGE_HEADER + ENTRY_WORDS * JOINED_ENTRIES);
pub const PART_BUFFER: usize = RECORD_HEADER + WRITE_WORDS * SET_KEYS;
pub const MERGED_WRITES: usize = SITES * SET_KEYS;
pub const MERGED_BUFFER: usize = RECORD_HEADER + WRITE_WORDS * MERGED_WRITES;

pub fn transaction_number(coordinator: u64, serial: u64) -> u64 {
    (coordinator << 32) | serial
}

pub fn coordinator_of(transaction: u64) -> u64 {
    transaction >> 32
}

pub fn serial_of(transaction: u64) -> u64 {
    transaction & LAST_SERIAL
}

/// A site's bit in a mask of participants.
pub fn site_bit(site: u64) -> u64 {
    1 << (site - 1)
}

pub fn is_site(site: u64, sites: u64) -> bool {
    (1..=sites).contains(&site)
}

pub fn is_mask(mask: u64, sites: u64) -> bool {
    mask >> sites == 0
}

/// Sites of a mask, ascending.
pub fn mask_sites(mask: u64) -> impl Iterator<Item = u64> {
    (1..=SITES as u64).filter(move |&site| mask & site_bit(site) != 0)
}

/// A transaction number that some site of the house can have given.
pub fn is_transaction(transaction: u64, sites: u64) -> bool {
    is_site(coordinator_of(transaction), sites) && serial_of(transaction) != 0
}
