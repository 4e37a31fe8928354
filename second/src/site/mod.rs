//! A site: its state and the calls of clients (C1 to C59, Q3.1 to Q3.6, Q5.1 to
//! Q5.5, Q10.1 to Q10.5, Q12.1, Q12.2, Q12.5).
//!
//! Every call first finds the refusal that applies, in the order of the causes,
//! then alters.

mod certify;
mod install;
mod part;
mod post;
mod search;

use std::collections::VecDeque;

pub use install::{InstallDone, Report};
pub use part::{Footprint, Installed, KeySet, Part, Stage};
pub use search::Found;

use crate::answer::{reason, require, Decision, Refusal, Sent};
use crate::desk::Desk;
use crate::message::{Kind, Letter, Outbox};
use crate::sizes::*;
use crate::table::Table;
use crate::value::{Value, FRESH};

#[derive(Clone, PartialEq, Eq, Debug)]
pub struct Site {
    /// Number of sites of the house, and where its keys live.
    pub table: Table,
    pub own: u64,
    pub clock: u64,
    /// The last serial given.
    pub serial: u64,
    /// Installs so far.
    pub installs: u64,
    /// Messages sent to, and taken from, each site.
    pub sent: [u64; SITES],
    pub taken: [u64; SITES],
    pub live: Vec<Part>,
    /// The last installed, oldest first.
    pub history: VecDeque<Installed>,
    /// Values by key, as the forgotten installs left them; fresh at keys of other sites.
    /// Any words may stand for a value.
    pub base: Vec<Value>,
}

impl Site {
    pub fn start(sites: u64, firsts: &[u64], own: u64) -> Result<Self, Refusal> {
        require(is_site(own, sites), Refusal::Impossible)?;
        Ok(Site {
            table: Table::start(sites, firsts)?,
            own,
            clock: 0,
            serial: 0,
            installs: 0,
            sent: [0; SITES],
            taken: [0; SITES],
            live: Vec::with_capacity(LIVE),
            history: VecDeque::with_capacity(HISTORY + 1),
            base: vec![FRESH; KEYS as usize],
        })
    }

    /// Answers the new transaction's number. An impossible desk goes before a full
    /// table and spent serials.
    pub fn begin(&mut self, desk: u64) -> Result<u64, Refusal> {
        let desk = Desk::of(desk).ok_or(Refusal::Impossible)?;
        require(self.live.len() < LIVE, Refusal::LiveFull)?;
        require(self.serial < LAST_SERIAL, Refusal::CountSpent)?;
        self.serial += 1;
        let transaction = transaction_number(self.own, self.serial);
        self.live.push(Part::begin(transaction, self.installs, self.own_bit(), desk));
        Ok(transaction)
    }

    pub fn enlist(
        &mut self,
        transaction: u64,
        site: u64,
        out: &mut [u64],
    ) -> Result<Sent, Refusal> {
        let mut out = Outbox::new(out)?;
        require(is_site(site, self.table.sites), Refusal::Impossible)?;
        let place = self.find_coordinated(transaction)?;
        let part = &self.live[place];
        let bit = site_bit(site);
        // The coordinator takes part from the beginning, whatever a handed mask says.
        let taking_part = part.participants | self.own_bit();
        require(part.is_active() && taking_part & bit == 0, Refusal::WrongStage)?;
        self.can_send(bit)?;
        let part = &mut self.live[place];
        part.participants |= bit;
        let argument = part.desk.number();
        let join = Letter { argument, ..Letter::bare(Kind::Join, transaction) };
        self.send(bit, join, &[], &mut out);
        Ok(Sent { words: out.used(), decision: None })
    }

    pub fn read(&mut self, transaction: u64, key: u64) -> Result<Value, Refusal> {
        let place = self.find_active(transaction, key)?;
        let part = &self.live[place];
        if let Some(value) = part.footprint.value(key) {
            return Ok(value);
        }
        require(!self.has_forgotten_since(part.snapshot), Refusal::Forgotten)?;
        let reads = &part.footprint.reads;
        require(reads.contains(key) || reads.len() < SET_KEYS, Refusal::TooManyKeys)?;
        let value = self.version(part.snapshot, key).value;
        self.live[place].footprint.reads.insert(key);
        Ok(value)
    }

    /// A value that does not fit is the last cause, of a key already written too.
    pub fn write(&mut self, transaction: u64, key: u64, value: Value) -> Result<(), Refusal> {
        let place = self.find_active(transaction, key)?;
        let part = &self.live[place];
        if !part.footprint.writes.contains(key) {
            require(!self.has_forgotten_since(part.snapshot), Refusal::Forgotten)?;
            let held = self.live.iter().any(|other| other.footprint.writes.contains(key));
            require(!held, Refusal::KeyHeld)?;
            let mut later = self.installed_since(part.snapshot);
            let newer = later.any(|installed| installed.footprint.writes.contains(key));
            require(!newer, Refusal::NewerVersion)?;
            let limit = part.desk.written_keys();
            require(part.footprint.writes.len() < limit, Refusal::TooManyKeys)?;
        }
        require(value.fits(), Refusal::DoesNotFit)?;
        self.live[place].footprint.put(key, value);
        Ok(())
    }

    /// C15 to C20.
    pub fn commit(&mut self, transaction: u64, out: &mut [u64]) -> Result<Sent, Refusal> {
        let mut out = Outbox::new(out)?;
        let place = self.find_coordinated(transaction)?;
        let Stage::Active { full } = self.live[place].stage else {
            return Err(Refusal::WrongStage);
        };
        require(self.outstanding(place) == 0, Refusal::JoinedOutstanding)?;
        let others = self.others(place);
        self.can_send(others)?;
        let decision = if full {
            Some(self.abort(place, reason::LIVE_FULL, &mut out))
        } else {
            self.request(place, others, &mut out)
        };
        Ok(Sent { words: out.used(), decision })
    }

    pub fn abandon(&mut self, transaction: u64, out: &mut [u64]) -> Result<Sent, Refusal> {
        let mut out = Outbox::new(out)?;
        let place = self.find_coordinated(transaction)?;
        let decided = matches!(self.live[place].stage, Stage::Decided { .. });
        require(!decided, Refusal::WrongStage)?;
        self.can_send(self.others(place))?;
        let decision = self.abort(place, reason::ABANDONED, &mut out);
        Ok(Sent { words: out.used(), decision: Some(decision) })
    }

    /// The own list is made before PREPARE goes out; a lone participant goes
    /// the same way without messages.
    fn request(&mut self, place: usize, others: u64, out: &mut Outbox) -> Option<Decision> {
        let part = &self.live[place];
        if self.has_forgotten_since(part.snapshot) {
            return Some(self.abort(place, reason::FORGOTTEN, out));
        }
        let letter = Letter {
            kind: Kind::Prepare,
            transaction: part.transaction,
            clock: self.clock,
            argument: part.participants,
        };
        let list = self.concurrent(part);
        let part = &mut self.live[place];
        part.stage = Stage::Prepared;
        part.heard = 0;
        part.gathered = list;
        if others == 0 {
            return self.close(place, out);
        }
        self.send(others, letter, &[], out);
        None
    }

    /// Refusals 5 and 26 of enlist, commit and abandon.
    fn find_coordinated(&self, transaction: u64) -> Result<usize, Refusal> {
        let place = self.find(transaction).ok_or(Refusal::NotHeld)?;
        require(coordinator_of(transaction) == self.own, Refusal::NotCoordinator)?;
        Ok(place)
    }

    /// Refusals 2, 3, 5 and 27 of read and write.
    fn find_active(&self, transaction: u64, key: u64) -> Result<usize, Refusal> {
        self.require_own_key(key)?;
        let place = self.find(transaction).ok_or(Refusal::NotHeld)?;
        require(self.live[place].is_active(), Refusal::WrongStage)?;
        Ok(place)
    }

    /// Q3.6: refusals 2 and 3 of read, write and search.
    fn require_own_key(&self, key: u64) -> Result<(), Refusal> {
        let home = self.table.site_of(key).ok_or(Refusal::Impossible)?;
        require(home == self.own, Refusal::OtherSite)
    }

    fn installed_since(&self, snapshot: u64) -> impl Iterator<Item = &Installed> {
        self.history.iter().rev().take_while(move |installed| installed.install > snapshot)
    }

    /// How many installs have left the history.
    pub fn forgotten(&self) -> u64 {
        self.installs.saturating_sub(HISTORY as u64)
    }

    fn has_forgotten_since(&self, snapshot: u64) -> bool {
        self.forgotten() > snapshot
    }

    pub fn find(&self, transaction: u64) -> Option<usize> {
        self.live.iter().position(|part| part.transaction == transaction)
    }

    fn own_bit(&self) -> u64 {
        site_bit(self.own)
    }

    fn others(&self, place: usize) -> u64 {
        self.live[place].participants & !self.own_bit()
    }

    fn outstanding(&self, place: usize) -> u64 {
        self.live[place].outstanding(self.own)
    }
}
