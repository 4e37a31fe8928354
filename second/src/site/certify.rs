//! Certification: concurrent transactions, votes and decisions
//! (C21 to C50).

use super::{Part, Site, Stage};
use crate::answer::{reason, Decision};
use crate::message::{Entry, Kind, Letter, Outbox};
use crate::sizes::HISTORY;

impl Site {
    /// Course 5: others prepared here, or installed after the part's snapshot.
    pub(super) fn concurrent(&self, part: &Part) -> Vec<Entry> {
        let prepared = self
            .live
            .iter()
            .filter(|other| other.is_prepared() && other.transaction != part.transaction)
            .map(|other| (other.transaction, other.participants, &other.footprint));
        let installed = self
            .installed_since(part.snapshot)
            .map(|other| (other.transaction, other.participants, &other.footprint));
        let mut list = Vec::with_capacity(self.live.len() + HISTORY);
        list.extend(prepared.chain(installed).map(|(transaction, participants, footprint)| {
            Entry { transaction, participants, marked: part.footprint.depends(footprint) }
        }));
        // A repeated number needs a forged JOIN; it is still one transaction.
        joined(list)
    }

    /// Course 7: 0, 18 or 19; where both fit, 18.
    pub(super) fn vote(&self, part: &Part, list: impl Iterator<Item = Entry>) -> u64 {
        let mut unknown = false;
        for entry in list {
            let mut on_record = self.find(entry.transaction).is_some();
            for past in self.history.iter().filter(|past| past.transaction == entry.transaction) {
                on_record = true;
                let seen = past.install <= part.snapshot;
                if seen && (entry.marked || part.footprint.depends(&past.footprint)) {
                    return reason::INCONSISTENT;
                }
            }
            unknown |= !on_record && entry.participants & self.own_bit() != 0;
        }
        if unknown && self.forgotten() > 0 {
            reason::FORGOTTEN
        } else {
            0
        }
    }

    /// The coordinator has every list: it votes, then sends CERT or ABORT.
    pub(super) fn close(&mut self, place: usize, out: &mut Outbox) -> Option<Decision> {
        let list = joined(std::mem::take(&mut self.live[place].gathered));
        let part = &self.live[place];
        let vote = self.vote(part, list.iter().copied());
        if vote != 0 {
            return Some(self.abort(place, vote, out));
        }
        let cert = Letter::bare(Kind::Cert, part.transaction);
        let others = self.others(place);
        self.live[place].enter_queue(self.clock);
        if others == 0 {
            return Some(self.decide(place, out));
        }
        self.send(others, cert, &list, out);
        None
    }

    /// Course 9, all yes.
    pub(super) fn decide(&mut self, place: usize, out: &mut Outbox) -> Decision {
        let Some(number) = self.clock.checked_add(1) else {
            return self.abort(place, reason::CLOCK_SPENT, out);
        };
        self.clock = number;
        let part = &mut self.live[place];
        part.stage = Stage::Decided { number };
        let commit = Letter { clock: number, ..Letter::bare(Kind::Commit, part.transaction) };
        self.send(self.others(place), commit, &[], out);
        Decision::Commit(number)
    }

    /// ABORT goes to every other participant, whatever it answered.
    pub(super) fn abort(&mut self, place: usize, reason: u64, out: &mut Outbox) -> Decision {
        let others = self.others(place);
        let part = self.live.remove(place);
        self.send(others, Letter::bare(Kind::Abort, part.transaction), &[], out);
        Decision::Abort(reason)
    }
}

/// Course 6: the entries of several lists as one, by transaction ascending.
fn joined(mut entries: Vec<Entry>) -> Vec<Entry> {
    entries.sort_unstable_by_key(|entry| entry.transaction);
    entries.dedup_by(|next, kept| next.transaction == kept.transaction && kept.absorb(next));
    entries
}
