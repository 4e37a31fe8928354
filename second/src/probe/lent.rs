//! Lengths that a probe lends: of the outgoing buffer, and of the words of sites, merger
//! and copies (Q12.4).

use super::line::Line;
use super::listed::LIST_WORDS;
use super::sums::{self, SITE_QUEUE};
use crate::sizes::*;

/// Words for the outgoing buffer, more than any call wants.
pub const ROOM: u64 = 8_192;
/// A copy's last number and last coordinator stand before its values.
pub const COPY_HEADER: usize = 2;
pub const COPY: u64 = (COPY_HEADER as u64) + BASE;
/// Values by key: the start of key k in word 2 k, its length behind it.
pub const BASE: u64 = VALUE_WORDS as u64 * KEYS;
/// Words of a set of keys: two counts, the keys read, the keys written, their values.
const KEY_WORDS: usize = 2 + (2 + VALUE_WORDS) * SET_KEYS;
/// A live place has seven words beside its keys, a slot of the history three.
pub const PLACES: u64 = (LIVE * (7 + KEY_WORDS)) as u64;
pub const SLOTS: u64 = (HISTORY * (3 + KEY_WORDS)) as u64;
pub const LISTS: u64 = (LIVE * LIST_WORDS) as u64;
pub const QUEUES: u64 = (SITES * SITE_QUEUE) as u64;

/// An outgoing buffer of so many words as a call is lent it, filled with a pattern.
pub fn buffer(room: u64) -> Vec<u64> {
    (0..room).map(|place| sums::more(place, 9)).collect()
}

pub struct Lent {
    pub room: u64,
    places: u64,
    slots: u64,
    base: u64,
    lists: u64,
    pub queues: u64,
    pub copy: u64,
}

pub const WHOLE: Lent = Lent {
    room: SEND_BUFFER as u64,
    places: PLACES,
    slots: SLOTS,
    base: BASE,
    lists: LISTS,
    queues: QUEUES,
    copy: COPY,
};

impl Lent {
    /// Sets the length that a line names, to at most one word more than the whole.
    pub fn set(&mut self, line: &Line) {
        let length = line.numbers[0];
        let (lent, most) = match line.verb.as_str() {
            "room" => (&mut self.room, ROOM),
            "places" => (&mut self.places, PLACES + 1),
            "slots" => (&mut self.slots, SLOTS + 1),
            "base" => (&mut self.base, BASE + 1),
            "lists" => (&mut self.lists, LISTS + 1),
            "queues" => (&mut self.queues, QUEUES + 1),
            _ => (&mut self.copy, COPY + 1),
        };
        *lent = length.min(most);
    }

    /// The outgoing words that a call of a site wants, and whether what else it is lent
    /// has its length.
    pub fn wanted(&self, verb: &str) -> (usize, bool) {
        let tables = self.places == PLACES && self.slots == SLOTS;
        let (base, lists) = (self.base == BASE, self.lists == LISTS);
        let (wanted, whole) = match verb {
            "enlist" | "abandon" => (SEND_BUFFER, true),
            "commit" | "message" => (SEND_BUFFER, lists),
            "install" => (PART_BUFFER, base),
            "report" => (PART_BUFFER, true),
            "read" | "search" => (0, base),
            "start" => (0, base && lists),
            _ => (0, true),
        };
        (wanted, tables && whole)
    }
}
