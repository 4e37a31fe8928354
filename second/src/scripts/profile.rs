//! What a seed makes a script look like.

use crate::random::Random;
use crate::table::even;

/// Kinds of random step, in the order of `Profile::weights`.
#[derive(Clone, Copy, PartialEq, Eq, Debug)]
pub enum Step {
    Begin,
    Enlist,
    Read,
    Write,
    Commit,
    Abandon,
    Take,
    Install,
    Report,
    Merge,
    Emit,
    Replay,
    Value,
    Noise,
}

pub const STEPS: [Step; 14] = [
    Step::Begin,
    Step::Enlist,
    Step::Read,
    Step::Write,
    Step::Commit,
    Step::Abandon,
    Step::Take,
    Step::Install,
    Step::Report,
    Step::Merge,
    Step::Emit,
    Step::Replay,
    Step::Value,
    Step::Noise,
];

pub type Weights = [u64; STEPS.len()];

#[derive(Clone, Debug)]
pub struct Profile {
    pub sites: u64,
    /// The first keys that `sites` gives, if it gives any.
    pub firsts: Option<Vec<u64>>,
    /// Keys in use at each site, from its first, as far as its range goes.
    pub keys: u64,
    /// Percent of transactions that begin for the proofing desk.
    pub proofing: u64,
    pub lines: u64,
    pub weights: Weights,
    /// Chance of a scene, against 100 for a step.
    pub scenes: u64,
    /// A site that takes and installs seldom.
    pub laggard: Option<u64>,
    pub drains: bool,
}

//                      begin enl read wri com aba take inst rep merge emit repl val noise
const EVEN: Weights = [10, 10, 12, 16, 10, 1, 40, 14, 4, 10, 8, 6, 3, 2];
const BUSY: Weights = [12, 24, 8, 12, 12, 0, 70, 10, 3, 6, 5, 4, 1, 0];
const CROWDED: Weights = [30, 22, 8, 10, 5, 1, 26, 4, 2, 4, 3, 2, 1, 1];
const KEYS: Weights = [3, 3, 40, 40, 4, 1, 15, 8, 2, 4, 3, 2, 1, 1];
const LOGS: Weights = [14, 4, 2, 12, 16, 0, 24, 24, 2, 30, 3, 3, 1, 1];
const NOISY: Weights = [10, 8, 8, 10, 8, 3, 26, 10, 4, 8, 6, 6, 6, 40];

impl Profile {
    pub fn choose(random: &mut Random) -> Profile {
        let sites = random.between(1, 8);
        let keys = [2, 4, 12, 2_048][random.below(4) as usize];
        let many = random.between(2, 8);
        let mut profile = Profile {
            sites,
            firsts: None,
            keys,
            proofing: [0, 15, 40, 85][random.below(4) as usize],
            lines: random.between(100, 400),
            weights: EVEN,
            scenes: 1,
            laggard: None,
            drains: random.chance(50),
        };
        match random.below(10) {
            0 | 1 => {}
            // Conflicts on few keys.
            2 => (profile.sites, profile.keys, profile.weights) = (random.between(2, 3), 3, BUSY),
            // Long lists, many participants.
            3 => (profile.sites, profile.weights, profile.lines) = (8, BUSY, 600),
            // Full live tables.
            4 => (profile.sites, profile.weights) = (many, CROWDED),
            // Wide read and write sets.
            5 => (profile.keys, profile.weights) = (random.between(15, 40), KEYS),
            // Full merger queues, forgotten history.
            6 => {
                (profile.sites, profile.weights, profile.lines) = (random.between(1, 3), LOGS, 500)
            }
            7 => profile.weights = NOISY,
            // Scenes one after another.
            8 => (profile.sites, profile.scenes, profile.lines) = (many, 30, 700),
            _ => (profile.sites, profile.scenes, profile.lines) = (many, 8, 500),
        }
        if random.chance(30) {
            profile.laggard = Some(random.between(1, profile.sites));
        }
        profile.firsts = firsts(random, profile.sites);
        profile
    }
}

/// Q3.7: half of the houses get none; the default may be given too.
fn firsts(random: &mut Random, sites: u64) -> Option<Vec<u64>> {
    match random.below(20) {
        0..=9 => None,
        10 => Some(even(sites)),
        _ => Some(random.firsts(sites)),
    }
}
