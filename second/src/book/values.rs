//! What the book says of values, beyond demand 3 (Q12.5, Q12.9): each value answered fits,
//! and 29 falls where a value to write does not fit and no cause before it holds. It finds
//! these causes in the calls so far, and adds start and length up for itself.

use super::{claim, Book, Chapter, Checked, KIND, TRANSACTION};
use crate::answer::{Decision, Refusal};
use crate::sizes::*;
use crate::value::Value;
use crate::world::{Answer, Call};

const PREPARE: u64 = 3;
const ABORT: u64 = 8;

fn fits(value: Value) -> bool {
    u128::from(value.start) + u128::from(value.length) < 1 << 64
}

impl Chapter {
    /// Neither installed nor aborted at a site where it began; sites count from 0.
    fn is_held_at(&self, site: usize) -> bool {
        self.begun[site].is_some() && self.installed[site].is_none() && !self.aborted[site]
    }
}

impl Book {
    /// Enters which parts an accepted call closes or aborts.
    pub(super) fn follow(&mut self, call: &Call, answer: &Answer) {
        let (site, transaction, kind) = match *call {
            Call::Commit { site, transaction } => (site, transaction, PREPARE),
            Call::Abandon { site, transaction } => (site, transaction, ABORT),
            Call::Message { site, words } => (site, words[TRANSACTION], words[KIND]),
            _ => return,
        };
        let chapter = self.chapters.entry(transaction).or_default();
        let site = site as usize - 1;
        let aborts = matches!(answer.decision(), Some(Decision::Abort(_)));
        chapter.closed[site] |= kind == PREPARE;
        chapter.aborted[site] |= aborts || kind == ABORT;
    }

    pub(super) fn check_values(&self, call: &Call, answer: &Result<Answer, Refusal>) -> Checked {
        let answered = match *answer {
            Ok(Answer::Value(value) | Answer::CopyValue(value, _)) => Some(value),
            Ok(Answer::Found(found)) => Some(found.value),
            _ => None,
        };
        claim(answered.is_none_or(fits), || format!("{call:?} answered {answer:?}"))?;
        let refused = *answer == Err(Refusal::DoesNotFit);
        let Call::Write { site, transaction, key, value } = *call else {
            return claim(!refused, || format!("{call:?} was refused 29"));
        };
        let due = !fits(value) && !self.has_earlier_cause(site, transaction, key);
        let holds = refused == due && (answer.is_err() || fits(value));
        claim(holds, || format!("{call:?} gave {answer:?}"))
    }

    /// Of a write: 2, 3, 5 or 27, and for a key that is new to the transaction 8 to 11.
    fn has_earlier_cause(&self, site: u64, transaction: u64, key: u64) -> bool {
        if self.homes.of_key(key) != Some(site) {
            return true;
        }
        let place = site as usize - 1;
        let chapter = self.chapters.get(&transaction);
        let active = |it: &&Chapter| it.is_held_at(place) && !it.closed[place];
        let Some(chapter) = chapter.filter(active) else { return true };
        if chapter.writes.contains_key(&key) {
            return false;
        }
        let began = chapter.begun[place];
        let later = || self.installs[place].iter().filter(|(moment, _)| Some(*moment) > began);
        let writes_it = |other: &Chapter| other.writes.contains_key(&key);
        let mut others = self.chapters.values();
        later().count() > HISTORY
            || others.any(|other| other.is_held_at(place) && writes_it(other))
            || later().any(|(_, writes)| writes.iter().any(|write| write.0 == key))
            || chapter.written_at(site, &self.homes) == chapter.limit()
    }
}
