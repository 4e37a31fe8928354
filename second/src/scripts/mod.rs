//! Scripts from a seed. The generator runs the house while it writes, to steer
//! towards deep states, and checks the book at every step.
//!
//! A script cannot reach refusals 1 (the program's buffer is long enough),
//! 4 (`take` hands in the next message), 13 (counts are too long to spend),
//! 14 and 16 (logs ascend, and a due record is whole) and 26 (the program asks
//! the coordinator), nor reasons 5 and 13; and `take` never gives 27, since a
//! channel brings its messages in turn. No line but `sites` gives 22.

mod desks;
mod end;
mod noise;
mod profile;
mod scenes;
mod steps;
mod tables;
mod values;

use std::fmt::Write;

use crate::answer::Refusal;
use crate::book::Book;
use crate::desk::Desk;
use crate::house::{House, Observer, Running};
use crate::random::Random;
use crate::site::{Part, Site};
use crate::tally::Tally;
use crate::world::{Answer, Call, World};

use profile::Profile;

#[derive(Default)]
struct Watcher {
    book: Book,
    tally: Tally,
    violation: Option<String>,
}

impl Observer for Watcher {
    fn start(&mut self, world: &World) {
        self.book = Book::of(world);
        self.tally.table(&world.merger.table);
    }

    fn called(
        &mut self,
        call: &Call,
        answer: &Result<Answer, Refusal>,
        written: &[u64],
        world: &World,
    ) {
        // Lines count the calls; of messages and records also the kinds count.
        match call {
            Call::Message { .. } | Call::Merge { .. } => self.tally.called(call, answer, written),
            _ => self.tally.replies(call, answer, written),
        }
        self.tally.desks(call, answer, world);
        self.tally.values(call, answer, world);
        if let Err(violation) = self.book.enter(call, answer, written, &world.copies) {
            self.violation = Some(violation);
        }
    }
}

pub struct Script {
    pub text: String,
    pub output: String,
    pub tally: Tally,
}

/// A script of about so many lines, and more where its end drains the house.
/// Panics with the script so far if a claim of the book breaks.
pub fn generate(seed: u64, lines: Option<u64>) -> Script {
    let mut generator = Generator::new(seed, lines);
    generator.run();
    let Generator { mut text, output, house, mut random, .. } = generator;
    if let Err(violation) = house.observer.book.close() {
        panic!("{violation} after this script:\n{text}");
    }
    // A last line without its newline counts as well.
    if random.chance(5) {
        text.pop();
    }
    Script { text, output, tally: house.observer.tally }
}

/// Refusals that no script should meet.
fn is_out_of_reach(line: &str, refusal: Refusal) -> bool {
    match refusal {
        Refusal::WrongStage => line.starts_with("take"),
        Refusal::BadTable => !line.starts_with("sites "),
        Refusal::BufferTooShort | Refusal::NotNext | Refusal::NotCoordinator => true,
        Refusal::CountSpent | Refusal::NotAbove | Refusal::PartsDisagree => true,
        _ => false,
    }
}

struct Generator {
    random: Random,
    profile: Profile,
    house: House<Watcher>,
    text: String,
    output: String,
    written: u64,
    budget: u64,
}

impl Generator {
    fn new(seed: u64, lines: Option<u64>) -> Self {
        let mut random = Random::new(seed);
        let profile = Profile::choose(&mut random);
        let budget = lines.unwrap_or(profile.lines);
        let house = House::new(Watcher::default());
        Generator {
            random,
            profile,
            house,
            text: String::new(),
            output: String::new(),
            written: 0,
            budget,
        }
    }

    fn run(&mut self) {
        self.opening();
        let weights = self.profile.weights;
        while self.written < self.budget {
            match self.random.weighted(&[self.profile.scenes, 100]) {
                0 => self.scene(),
                _ => self.step(&weights),
            }
        }
        if self.profile.drains {
            self.drain();
        }
    }

    /// Obeys a line; answers what it gave.
    fn line(&mut self, line: &str) -> Result<Answer, Refusal> {
        self.text.push_str(line);
        self.text.push('\n');
        self.written += 1;
        let answer = self.house.line(line.as_bytes(), &mut self.output);
        self.house.observer.tally.line(line, &answer);
        if let Some(violation) = &self.house.observer.violation {
            panic!("{violation} after this script:\n{}", self.text);
        }
        if answer.is_err_and(|refusal| is_out_of_reach(line, refusal)) {
            panic!("{answer:?} is out of reach, after this script:\n{}", self.text);
        }
        answer
    }

    /// A line of a name and numbers.
    fn say(&mut self, name: &str, numbers: &[u64]) -> Result<Answer, Refusal> {
        let mut line = name.to_string();
        for number in numbers {
            // Writing to a String cannot fail.
            let _ = write!(line, " {number}");
        }
        self.line(&line)
    }

    /// The same, whatever it gives.
    fn tell(&mut self, name: &str, numbers: &[u64]) {
        let _ = self.say(name, numbers);
    }

    fn running(&self) -> &Running {
        self.house.running.as_ref().expect("the opening started the house")
    }

    fn sites(&self) -> u64 {
        self.profile.sites
    }

    fn site(&self, site: u64) -> &Site {
        &self.running().world.sites[site as usize - 1]
    }

    fn any_site(&mut self) -> u64 {
        self.random.between(1, self.profile.sites)
    }

    /// Another site than this one; the same where the house has one only.
    fn other_site(&mut self, site: u64) -> u64 {
        if self.sites() == 1 {
            return site;
        }
        let step = self.random.between(1, self.sites() - 1);
        (site - 1 + step) % self.sites() + 1
    }

    /// Live parts with their sites, all or those that a condition picks.
    fn parts(&self, picks: impl Fn(&Site, &Part) -> bool) -> Vec<(u64, u64)> {
        let mut found = Vec::new();
        for site in &self.running().world.sites {
            let picked = site.live.iter().filter(|part| picks(site, part));
            found.extend(picked.map(|part| (site.own, part.transaction)));
        }
        found
    }

    /// Begins a transaction for a desk of the profile's mixture.
    fn begin(&mut self, site: u64) -> Option<u64> {
        let proofing = self.random.chance(self.profile.proofing);
        self.begin_for(site, if proofing { Desk::Proofing } else { Desk::House })
    }

    /// The house desk may go without saying.
    fn begin_for(&mut self, site: u64, desk: Desk) -> Option<u64> {
        let begun = match desk {
            Desk::House if self.random.chance(70) => self.say("begin", &[site]),
            _ => self.say("begin", &[site, desk.number()]),
        };
        match begun {
            Ok(Answer::Begun(transaction)) => Some(transaction),
            _ => None,
        }
    }
}
