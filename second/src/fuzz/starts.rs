//! Starts of sites and mergers with any number of sites, any own number and any first
//! keys: what each gives is fixed (Q3.3, Q3.4).

use super::Fuzz;
use crate::answer::Refusal;
use crate::merger::Merger;
use crate::random::Random;
use crate::site::Site;
use crate::sizes::*;

impl Fuzz {
    pub(super) fn forged_start(&mut self) -> Result<(), String> {
        let (sites, own) = (self.random.site(SITES as u64), self.random.between(0, 9));
        let firsts = some_firsts(&mut self.random, sites);
        let refused = [Site::start(sites, &firsts, own).err(), Merger::start(sites, &firsts).err()];
        let due = [refusal(sites, &firsts, own), refusal(sites, &firsts, 1)];
        match refused == due {
            true => Ok(()),
            false => Err(format!("a start of {sites} at {own} with {firsts:?} gave {refused:?}")),
        }
    }
}

/// Good ones and bad ones, at times one more or one fewer than the house has sites.
fn some_firsts(random: &mut Random, sites: u64) -> Vec<u64> {
    let count = match random.below(6) {
        0 => sites + 1,
        1 => sites.saturating_sub(1),
        _ => sites,
    };
    match count {
        0 => Vec::new(),
        _ if random.chance(50) => random.firsts(count),
        _ => random.bad_firsts(count),
    }
}

/// A good table is the list of its own keys in order, each once, from 0 to 2,047 at most.
fn refusal(sites: u64, firsts: &[u64], own: u64) -> Option<Refusal> {
    if !(1..=8).contains(&sites) || firsts.len() as u64 != sites || own == 0 || own > sites {
        return Some(Refusal::Impossible);
    }
    let mut sorted: Vec<u64> = firsts.iter().copied().filter(|&first| first <= 2_047).collect();
    sorted.sort_unstable();
    sorted.dedup();
    (sorted != firsts || sorted[0] != 0).then_some(Refusal::BadTable)
}
