//! Messages as words (M1 to M17, Q10.3): the check, the reader, the writer.

use crate::answer::{reason, require, Refusal};
use crate::desk::Desk;
use crate::sizes::*;

mod at {
    pub const LENGTH: usize = 0;
    pub const KIND: usize = 1;
    pub const FROM: usize = 2;
    pub const TO: usize = 3;
    pub const CHANNEL: usize = 4;
    pub const TRANSACTION: usize = 5;
    pub const CLOCK: usize = 6;
    pub const ARGUMENT: usize = 7;
    pub const COUNT: usize = 8;
    pub const OFFSET: usize = 9;
}

#[derive(Clone, Copy, PartialEq, Eq, Debug)]
#[repr(u64)]
pub enum Kind {
    Join = 1,
    Joined = 2,
    Prepare = 3,
    Conc = 4,
    Cert = 5,
    Vote = 6,
    Commit = 7,
    Abort = 8,
}

impl Kind {
    fn of(word: u64) -> Option<Kind> {
        use Kind::*;
        [Join, Joined, Prepare, Conc, Cert, Vote, Commit, Abort]
            .into_iter()
            .find(|&kind| kind as u64 == word)
    }

    pub fn name(self) -> &'static str {
        match self {
            Kind::Join => "JOIN",
            Kind::Joined => "JOINED",
            Kind::Prepare => "PREPARE",
            Kind::Conc => "CONC",
            Kind::Cert => "CERT",
            Kind::Vote => "VOTE",
            Kind::Commit => "COMMIT",
            Kind::Abort => "ABORT",
        }
    }

    fn comes_from_coordinator(self) -> bool {
        !matches!(self, Kind::Joined | Kind::Conc | Kind::Vote)
    }

    pub fn carries_clock(self) -> bool {
        matches!(self, Kind::Prepare | Kind::Vote | Kind::Commit)
    }

    pub fn carries_argument(self) -> bool {
        matches!(self, Kind::Join | Kind::Joined | Kind::Prepare | Kind::Vote)
    }

    pub fn carries_entries(self) -> bool {
        self.most_entries() > 0
    }

    fn most_entries(self) -> usize {
        match self {
            Kind::Conc => LIST_ENTRIES,
            Kind::Cert => JOINED_ENTRIES,
            _ => 0,
        }
    }
}

/// A concurrent transaction in a CONC or CERT.
#[derive(Clone, Copy, PartialEq, Eq, Debug)]
pub struct Entry {
    pub transaction: u64,
    pub participants: u64,
    pub marked: bool,
}

impl Entry {
    /// Joins another entry of the same transaction: any mark, any participant.
    pub fn absorb(&mut self, same: &Entry) -> bool {
        self.participants |= same.participants;
        self.marked |= same.marked;
        true
    }
}

#[derive(Clone, Copy, Debug)]
pub struct Message<'a> {
    pub kind: Kind,
    pub from: u64,
    pub to: u64,
    pub channel: u64,
    pub transaction: u64,
    pub clock: u64,
    pub argument: u64,
    entry_words: &'a [u64],
}

impl<'a> Message<'a> {
    /// Reads a message of a house of `sites`; any breach of the layout is refused 2.
    pub fn parse(words: &'a [u64], sites: u64) -> Result<Self, Refusal> {
        Self::layout(words).filter(|message| message.is_possible(sites)).ok_or(Refusal::Impossible)
    }

    /// Lengths, counts and offsets; a kind from 1 to 8.
    fn layout(words: &'a [u64]) -> Option<Self> {
        let (header, entry_words) = words.split_at_checked(MESSAGE_HEADER)?;
        let kind = Kind::of(header[at::KIND])?;
        let count = header[at::COUNT];
        let fits = header[at::LENGTH] == words.len() as u64
            && count <= kind.most_entries() as u64
            && entry_words.len() == count as usize * ENTRY_WORDS
            && header[at::OFFSET] == entries_offset(count as usize);
        fits.then_some(Message {
            kind,
            from: header[at::FROM],
            to: header[at::TO],
            channel: header[at::CHANNEL],
            transaction: header[at::TRANSACTION],
            clock: header[at::CLOCK],
            argument: header[at::ARGUMENT],
            entry_words,
        })
    }

    fn is_possible(&self, sites: u64) -> bool {
        let speaker = if self.kind.comes_from_coordinator() { self.from } else { self.to };
        is_site(self.from, sites)
            && is_site(self.to, sites)
            && self.from != self.to
            && is_transaction(self.transaction, sites)
            && coordinator_of(self.transaction) == speaker
            && (self.kind.carries_clock() || self.clock == 0)
            && self.argument_is_possible(sites)
            && self.entries_are_possible(sites)
    }

    fn argument_is_possible(&self, sites: u64) -> bool {
        match self.kind {
            Kind::Join => Desk::of(self.argument).is_some(),
            Kind::Joined => matches!(self.argument, 0 | reason::LIVE_FULL),
            Kind::Prepare => {
                let both = site_bit(self.from) | site_bit(self.to);
                is_mask(self.argument, sites) && self.argument & both == both
            }
            Kind::Vote => matches!(
                self.argument,
                0 | reason::NOT_HELD | reason::INCONSISTENT | reason::FORGOTTEN
            ),
            _ => self.argument == 0,
        }
    }

    fn entries_are_possible(&self, sites: u64) -> bool {
        let words = self.entry_words;
        let ascending = words
            .chunks_exact(ENTRY_WORDS)
            .zip(words.chunks_exact(ENTRY_WORDS).skip(1))
            .all(|(one, next)| one[0] < next[0]);
        ascending
            && words.chunks_exact(ENTRY_WORDS).all(|entry| {
                is_transaction(entry[0], sites) && is_mask(entry[1], sites) && entry[2] <= 1
            })
    }

    pub fn entries(&self) -> impl Iterator<Item = Entry> + 'a {
        self.entry_words.chunks_exact(ENTRY_WORDS).map(|entry| Entry {
            transaction: entry[0],
            participants: entry[1],
            marked: entry[2] == 1,
        })
    }
}

fn entries_offset(count: usize) -> u64 {
    if count == 0 {
        0
    } else {
        MESSAGE_HEADER as u64
    }
}

/// The words of a message that do not depend on its channel.
#[derive(Clone, Copy, Debug)]
pub struct Letter {
    pub kind: Kind,
    pub transaction: u64,
    pub clock: u64,
    pub argument: u64,
}

impl Letter {
    pub fn bare(kind: Kind, transaction: u64) -> Self {
        Letter { kind, transaction, clock: 0, argument: 0 }
    }
}

/// The outgoing buffer: each message goes directly behind the one before it.
pub struct Outbox<'a> {
    words: &'a mut [u64],
    used: usize,
}

impl<'a> Outbox<'a> {
    /// Refuses a buffer below the size that every sending call wants.
    pub fn new(words: &'a mut [u64]) -> Result<Self, Refusal> {
        require(words.len() >= SEND_BUFFER, Refusal::BufferTooShort)?;
        Ok(Outbox { words, used: 0 })
    }

    pub fn used(&self) -> usize {
        self.used
    }

    pub fn post(&mut self, from: u64, to: u64, channel: u64, letter: Letter, list: &[Entry]) {
        let length = MESSAGE_HEADER + list.len() * ENTRY_WORDS;
        let message = &mut self.words[self.used..self.used + length];
        let (header, entries) = message.split_at_mut(MESSAGE_HEADER);
        header[at::LENGTH] = length as u64;
        header[at::KIND] = letter.kind as u64;
        header[at::FROM] = from;
        header[at::TO] = to;
        header[at::CHANNEL] = channel;
        header[at::TRANSACTION] = letter.transaction;
        header[at::CLOCK] = letter.clock;
        header[at::ARGUMENT] = letter.argument;
        header[at::COUNT] = list.len() as u64;
        header[at::OFFSET] = entries_offset(list.len());
        for (words, entry) in entries.chunks_exact_mut(ENTRY_WORDS).zip(list) {
            words[0] = entry.transaction;
            words[1] = entry.participants;
            words[2] = entry.marked as u64;
        }
        self.used += length;
    }
}
