//! Random lists of calls at the level of words. Messages come late, twice, out
//! of turn, to wrong sites or never; records are repeated; buffers have any
//! length. At every step the book is checked, and that a refused call alters
//! neither state nor buffer.

mod bytes;
mod choose;
mod conversions;
mod forge;
mod starts;
mod values;

use crate::answer::Refusal;
use crate::book::Book;
use crate::copy::Copy;
use crate::desk::Desk;
use crate::house::messages;
use crate::merger::Merger;
use crate::random::Random;
use crate::site::Site;
use crate::sizes::*;
use crate::table::{even, Table};
use crate::tally::Tally;
use crate::world::{Answer, Call, World};

type Words = Vec<u64>;

/// Records in the order written, and how many were taken.
#[derive(Clone, Debug, Default)]
struct Spool {
    records: Vec<Words>,
    taken: usize,
}

/// The one that a call works on, before the call.
#[derive(PartialEq)]
enum Before {
    Site(Box<Site>),
    Merger(Merger),
    Copy(Copy),
    Nobody,
}

pub struct Fuzz {
    random: Random,
    world: World,
    table: Table,
    book: Book,
    tally: Tally,
    /// Every message ever written; a log for each site; the stream for each copy.
    posted: Vec<Words>,
    logs: Vec<Spool>,
    stream: Vec<Words>,
    replayed: Vec<usize>,
    keys: u64,
    lone: bool,
    /// Percent of transactions that begin for the proofing desk.
    proofing: u64,
    /// Percent of calls that read or write for one part; its site and number.
    filling: u64,
    filled: (u64, u64),
    /// Percent of messages that come in turn.
    order: u64,
    /// A channel that brings nothing.
    mute: (u64, u64),
    trace: bool,
}

/// A run of so many calls; panics with the seed where a check fails.
pub fn run(seed: u64, calls: u64, trace: bool) -> Tally {
    let mut fuzz = Fuzz::new(seed, trace);
    for step in 0..calls {
        if let Err(violation) = fuzz.step() {
            panic!("{violation}; seed {seed}, step {step} (second-fuzz --trace {seed} lists the calls)");
        }
    }
    if let Err(violation) = fuzz.book.close() {
        panic!("{violation}; seed {seed}, at the end");
    }
    fuzz.tally
}

impl Fuzz {
    fn new(seed: u64, trace: bool) -> Self {
        let mut random = Random::new(seed);
        let sites = random.between(1, SITES as u64);
        let firsts = if random.chance(40) { even(sites) } else { random.firsts(sites) };
        let mut world = World::start(sites, &firsts).expect("a good table");
        if random.chance(20) {
            near_the_ends(&mut world, &mut random);
        }
        let mut tally = Tally::default();
        tally.table(&world.merger.table);
        let mute = (random.between(1, 24), random.between(1, 8));
        Fuzz {
            book: Book::of(&world),
            table: world.merger.table,
            world,
            tally,
            posted: Vec::new(),
            logs: vec![Spool::default(); sites as usize],
            stream: Vec::new(),
            replayed: vec![0; COPIES],
            keys: [2, 5, 40, KEYS][random.below(4) as usize],
            lone: random.chance(25),
            proofing: [10, 50, 90][random.below(3) as usize],
            filling: [0, 6, 30][random.below(3) as usize],
            filled: (0, 0),
            order: [60, 90, 98][random.below(3) as usize],
            mute,
            trace,
            random,
        }
    }

    fn step(&mut self) -> Result<(), String> {
        if let Some(checked) = self.aside() {
            return checked;
        }
        let (handed, source) = self.choose();
        let call = source.call(&handed);
        let mut buffer = self.buffer(&call);
        let blank = buffer.clone();
        let before = self.before(&call);
        let answer = self.world.call(&call, &mut buffer);
        if self.trace {
            println!("{call:?} with {} words: {answer:?}", buffer.len());
        }
        let words = answer.map_or(0, |answer| answer.words());
        if buffer[words..] != blank[words..] {
            return Err("words behind the last one written changed".to_string());
        }
        let leaves = answer.is_err() || matches!(call, Call::Search { .. });
        if leaves && before != self.before(&call) {
            return Err(format!("a call altered its state: {call:?} gave {answer:?}"));
        }
        if answer.is_err_and(|refusal| self.is_out_of_reach(&call, refusal)) {
            return Err(format!("{call:?} gave {answer:?}"));
        }
        let written = &buffer[..words];
        self.tally.called(&call, &answer, written);
        self.tally.desks(&call, &answer, &self.world);
        self.tally.values(&call, &answer, &self.world);
        self.book.enter(&call, &answer, written, &self.world.copies)?;
        self.keep(&call, &answer, written);
        Ok(())
    }

    /// Now and then something on states set aside, or on none.
    fn aside(&mut self) -> Option<Result<(), String>> {
        Some(match self.random.below(100) {
            0..=2 => self.forged_words(),
            3 => self.forged_join(),
            4 => self.forged_start(),
            5 => self.forged_value(),
            6 => self.handed_value(),
            7 => self.conversion(),
            8 => self.run_of_conversions(),
            9 => self.written_record(),
            10 => self.byte_copy(),
            _ => return None,
        })
    }

    /// Beyond demand 3: a channel's next message is in turn, a log's next
    /// record ascends, a due record is whole. Of the coordinator's calls, 26 falls
    /// only at another site and 27 only at the coordinator; 26 falls in no other call.
    /// A search is refused 2 or 3. A begin is refused 2 for a site or a desk that is
    /// none, whatever else applies, and for nothing else. None of these calls gives 22.
    fn is_out_of_reach(&self, call: &Call, refusal: Refusal) -> bool {
        match *call {
            _ if refusal == Refusal::BadTable => true,
            Call::Begin { site, desk } => {
                let possible = is_site(site, self.world.sites.len() as u64);
                let possible = possible && Desk::of(desk).is_some();
                possible == (refusal == Refusal::Impossible)
            }
            Call::Enlist { site, transaction, .. }
            | Call::Commit { site, transaction }
            | Call::Abandon { site, transaction } => match refusal {
                Refusal::NotCoordinator => coordinator_of(transaction) == site,
                Refusal::WrongStage => coordinator_of(transaction) != site,
                _ => false,
            },
            _ if refusal == Refusal::NotCoordinator => true,
            Call::Search { .. } => !matches!(refusal, Refusal::Impossible | Refusal::OtherSite),
            Call::Message { .. } => refusal == Refusal::WrongStage,
            Call::Merge { words } => {
                let mut logs = self.logs.iter();
                let next =
                    |log: &Spool| log.records.get(log.taken).is_some_and(|next| next == words);
                refusal == Refusal::NotAbove && logs.any(next)
            }
            Call::Emit => refusal == Refusal::PartsDisagree,
            _ => false,
        }
    }

    /// Mostly long enough; else around every length that a call asks for.
    fn buffer(&mut self, call: &Call) -> Words {
        let asked = match call {
            Call::Install { .. } | Call::Report { .. } => PART_BUFFER,
            Call::Emit => MERGED_BUFFER,
            Call::Enlist { .. }
            | Call::Commit { .. }
            | Call::Abandon { .. }
            | Call::Message { .. } => SEND_BUFFER,
            _ => 0,
        };
        let length = match self.random.below(60) {
            0 => asked.saturating_sub(1),
            1 => self.random.below(asked as u64 + 1) as usize,
            2..=9 => asked + 3,
            _ => asked,
        };
        vec![self.random.word(); length]
    }

    fn before(&self, call: &Call) -> Before {
        let site = |number: u64| self.world.sites.get(number.wrapping_sub(1) as usize).cloned();
        let copy = |number: u64| self.world.copies.get(number.wrapping_sub(1) as usize).cloned();
        match *call {
            Call::Begin { site: number, .. }
            | Call::Enlist { site: number, .. }
            | Call::Read { site: number, .. }
            | Call::Write { site: number, .. }
            | Call::Search { site: number, .. }
            | Call::Commit { site: number, .. }
            | Call::Abandon { site: number, .. }
            | Call::Message { site: number, .. }
            | Call::Install { site: number }
            | Call::Report { site: number } => {
                site(number).map_or(Before::Nobody, |site| Before::Site(Box::new(site)))
            }
            Call::Merge { .. } | Call::Emit => Before::Merger(self.world.merger.clone()),
            Call::Replay { copy: number, .. } | Call::Value { copy: number, .. } => {
                copy(number).map_or(Before::Nobody, Before::Copy)
            }
        }
    }

    /// Keeps what an accepted call wrote, and counts what it took.
    fn keep(&mut self, call: &Call, answer: &Result<Answer, Refusal>, written: &[u64]) {
        if answer.is_err() {
            return;
        }
        match *call {
            Call::Install { site } | Call::Report { site } => {
                self.logs[site as usize - 1].records.push(written.to_vec());
            }
            Call::Emit => self.stream.push(written.to_vec()),
            // An accepted repeat is a state equal to the last; where the next is
            // equal to it too, either reading leaves the same merger.
            Call::Merge { words } => {
                let log = &mut self.logs[words[2] as usize - 1];
                if log.records.get(log.taken).is_some_and(|next| next == words) {
                    log.taken += 1;
                }
            }
            Call::Replay { copy, .. } => self.replayed[copy as usize - 1] += 1,
            _ => self.posted.extend(messages(written).map(<[u64]>::to_vec)),
        }
    }
}

/// Clocks, serials, channels and installs of which little is left.
fn near_the_ends(world: &mut World, random: &mut Random) {
    let count = world.sites.len();
    for site in &mut world.sites {
        if random.chance(50) {
            site.clock = u64::MAX - random.below(12);
        }
        if random.chance(30) {
            site.serial = LAST_SERIAL - random.below(12);
        }
        if random.chance(30) {
            site.installs = u64::MAX - random.below(12);
        }
    }
    for from in 0..count {
        for to in 0..count {
            if random.chance(30) {
                let passed = u64::MAX - random.below(20);
                world.sites[from].sent[to] = passed;
                world.sites[to].taken[from] = passed;
            }
        }
    }
}
