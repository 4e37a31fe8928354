//! Words that no call wrote, on states set aside: the answer is free, but it
//! must not trap, and a refused call alters nothing. What a JOIN for any desk gives
//! is fixed.

use super::{Fuzz, Words};
use crate::answer::Refusal;
use crate::desk::Desk;
use crate::message::Kind;
use crate::site::Site;
use crate::sizes::*;
use crate::value::Value;

impl Fuzz {
    /// A written message or record with a few words changed.
    fn forge(&mut self) -> Words {
        let log = self.random.below(self.logs.len() as u64) as usize;
        let list = match self.random.below(4) {
            0 | 1 => &self.posted,
            2 => &self.logs[log].records,
            _ => &self.stream,
        };
        let mut words = self.random.pick(list).unwrap_or_default();
        for _ in 0..self.random.between(1, 3) {
            if words.is_empty() {
                break;
            }
            let place = self.random.below(words.len() as u64) as usize;
            words[place] = match self.random.below(6) {
                0 => self.random.word(),
                1 => u64::MAX,
                2 => words[place].wrapping_add(1),
                3 => words[place].wrapping_sub(1),
                4 => words[place] ^ (1 << self.random.below(64)),
                _ => self.random.below(20),
            };
        }
        match self.random.below(12) {
            0 => words.truncate(self.random.below(words.len() as u64 + 1) as usize),
            1 => words.extend([0, 0, 0]),
            _ => {}
        }
        words
    }

    pub(super) fn forged_words(&mut self) -> Result<(), String> {
        let mut words = self.forge();
        let mut out = vec![7; SEND_BUFFER];
        for site in &self.world.sites {
            if words.len() > 4 {
                // Past refusal 4, to reach what lies behind it.
                let from = words[2].wrapping_sub(1) as usize;
                words[4] = site.taken.get(from).map_or(0, |taken| taken.wrapping_add(1));
            }
            let mut forged = site.clone();
            let refused = forged.message(&words, &mut out).is_err();
            if refused && (forged != *site || out.iter().any(|&word| word != 7)) {
                return Err(format!("a forged message altered a site: {words:?}"));
            }
            out.fill(7);
        }
        let mut merger = self.world.merger.clone();
        if merger.merge(&words).is_err() && merger != self.world.merger {
            return Err(format!("a forged record altered the merger: {words:?}"));
        }
        let mut copy = self.world.copies[0].clone();
        if copy.replay(&words).is_err() && copy != self.world.copies[0] {
            return Err(format!("a forged record altered a copy: {words:?}"));
        }
        Ok(())
    }

    /// A JOIN as the next of its channel, with a number that may be held and a desk
    /// that may be none.
    pub(super) fn forged_join(&mut self) -> Result<(), String> {
        let sites = self.world.sites.len() as u64;
        let (from, to) = (self.random.between(1, sites), self.random.between(1, sites));
        let site = &self.world.sites[to as usize - 1];
        let held: Vec<u64> = site.live.iter().map(|part| part.transaction).collect();
        let fresh = transaction_number(from, LAST_SERIAL - self.random.below(3));
        let transaction = match self.random.chance(10) {
            true => self.random.pick(&held).unwrap_or(fresh),
            false => fresh,
        };
        let desk = [0, 1, 1, 2, 12, u64::MAX][self.random.below(6) as usize];
        let channel = site.taken[from as usize - 1].wrapping_add(1);
        let join = [10, Kind::Join as u64, from, to, channel, transaction, 0, desk, 0, 0];
        check_join(site, &join).map_err(|error| format!("a forged JOIN {join:?} {error}"))
    }
}

/// Q10.3, Q10.4: the part that a JOIN begins keeps its desk, and writes so many keys.
fn check_join(site: &Site, join: &[u64; MESSAGE_HEADER]) -> Result<(), String> {
    let [.., transaction, _, desk, _, _] = *join;
    let (mut joined, mut out) = (site.clone(), vec![7; SEND_BUFFER]);
    let (answer, due) = (joined.message(join, &mut out).err(), refusal_of_join(site, join));
    if answer != due {
        return Err(format!("gave {answer:?}, and {due:?} was due"));
    }
    if due.is_some() && (joined != *site || out.iter().any(|&word| word != 7)) {
        return Err("altered a site that refused it".to_string());
    }
    if joined.live.len() == site.live.len() {
        return Ok(());
    }
    let is_held = |key: u64| site.live.iter().any(|part| part.footprint.writes.contains(key));
    let free: Vec<u64> = site.table.keys(site.own).filter(|&key| !is_held(key)).collect();
    let mut writes = |key: u64| joined.write(transaction, key, Value::new(key, 0)).is_ok();
    let written = free.iter().take_while(|&&key| writes(key)).count();
    // A short range may have fewer keys than the desk allows.
    match Desk::of(desk).map(|desk| desk.written_keys().min(free.len())) == Some(written) {
        true => Ok(()),
        false => Err(format!("began a part that wrote {written} keys")),
    }
}

fn refusal_of_join(site: &Site, join: &[u64; MESSAGE_HEADER]) -> Option<Refusal> {
    let [_, _, from, _, channel, transaction, _, desk, ..] = *join;
    let possible = coordinator_of(transaction) == from && from != site.own;
    if !possible || Desk::of(desk).is_none() {
        Some(Refusal::Impossible)
    } else if channel == 0 {
        Some(Refusal::NotNext)
    } else if site.find(transaction).is_some() {
        Some(Refusal::WrongStage)
    } else {
        (site.sent[from as usize - 1] == u64::MAX).then_some(Refusal::CountSpent)
    }
}
