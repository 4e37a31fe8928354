//! Values that do not fit, in records and in handed sites (Q12.6, Q12.7), on states set
//! aside: what each gives is fixed.

use super::{Fuzz, Words};
use crate::answer::Refusal;
use crate::probe::handed::Handed;
use crate::record::PART;
use crate::site::Site;
use crate::sizes::*;
use crate::value::Value;

/// Positions of a record's kind and count of writes.
const KIND: usize = 1;
const COUNT: usize = 7;
/// The first field of the starts, and of the lengths, of a part's values.
const STARTS: u64 = 300;
const LENGTHS: u64 = 400;

impl Fuzz {
    /// A value of any kind; every other one does not fit.
    fn forged(&mut self) -> Value {
        let value = self.random.value();
        match self.random.chance(50) {
            true => self.random.long_value(value.start),
            false => value,
        }
    }

    /// A part or merged record that some call wrote, with one value changed: 2 where it
    /// does not fit, else what the record itself gives.
    pub(super) fn forged_value(&mut self) -> Result<(), String> {
        let logs = self.logs.iter().flat_map(|log| &log.records);
        let written = logs.chain(&self.stream).filter(|words| words[COUNT] > 0);
        let picked = self.random.pick(&written.collect::<Vec<&Words>>()).cloned();
        let Some(words) = picked else { return Ok(()) };
        let mut forged = words.clone();
        let (place, value) = (self.random.below(words[COUNT]) as usize, self.forged());
        let at = RECORD_HEADER + WRITE_WORDS * place + 1;
        forged[at..at + VALUE_WORDS].copy_from_slice(&value.words());
        let (mut merger, mut copy) = (self.world.merger.clone(), self.world.copies[0].clone());
        let given = match words[KIND] {
            PART => [merger.clone().merge(&words).err(), merger.merge(&forged).err()],
            _ => [copy.clone().replay(&words).err(), copy.replay(&forged).err()],
        };
        let due = if value.fits() { given[0] } else { Some(Refusal::Impossible) };
        let altered = merger != self.world.merger || copy != self.world.copies[0];
        match given[1] == due && altered == due.is_none() {
            true => Ok(()),
            false => Err(format!("{forged:?} gave {given:?}, and {due:?} was due")),
        }
    }

    /// A site with one written value changed, of a live part or of the history: it is
    /// possible where the value fits.
    pub(super) fn handed_value(&mut self) -> Result<(), String> {
        let site = self.random.between(1, self.world.sites.len() as u64);
        let site = self.world.sites[site as usize - 1].clone();
        let Some((part, install, place)) = self.random.pick(&written_values(&site)) else {
            return Ok(());
        };
        let value = self.forged();
        let mut handed = Handed::of(site);
        for (first, word) in [(STARTS, value.start), (LENGTHS, value.length)] {
            let poked = match install {
                None => handed.poke_live(part, first + place, word),
                Some(install) => handed.poke_past(install, first + place, word),
            };
            poked?.map_err(|refusal| format!("no value {place} of {part}: {refusal:?}"))?;
        }
        match handed.is_within_sizes() == value.fits() {
            true => Ok(()),
            false => Err(format!("a site with {value} at {part} is taken wrongly")),
        }
    }
}

/// Every written value by its transaction, its install if it has one, and its place. A
/// history whose count began near its end has slots that nothing filled.
fn written_values(site: &Site) -> Vec<(u64, Option<u64>, u64)> {
    let live = site.live.iter().map(|part| (part.transaction, None, &part.footprint));
    let past = site.history.iter();
    let past = past.map(|past| (past.transaction, Some(past.install), &past.footprint));
    let whole = site.history.len() as u64 == site.installs.min(HISTORY as u64);
    let all = live.chain(past.filter(|_| whole));
    all.flat_map(|(transaction, install, footprint)| {
        (0..footprint.values.len() as u64).map(move |place| (transaction, install, place))
    })
    .collect()
}
