//! A script's course: what each line did, and which line took what another wrote.

use std::collections::{BTreeMap, VecDeque};

use super::wording::{self, Did};
use crate::answer::Refusal;
use crate::house::{messages, House};
use crate::message::Kind;
use crate::script::Command;
use crate::sizes::*;
use crate::trace::{read_message, Told};
use crate::world::Answer;

/// Lines of a script that a picture draws.
pub const MOST_EVENTS: usize = 400;

#[derive(Clone, Copy, PartialEq, Eq, PartialOrd, Ord, Debug)]
pub enum Place {
    Site(u64),
    Merger,
    Copy(u64),
}

/// One line of the script.
#[derive(Clone, Debug)]
pub struct Step {
    pub line: String,
    /// None where the house has no such place, and for `sites`.
    pub place: Option<Place>,
    pub did: Did,
}

/// A message or record, from the step that wrote it to the step that took it.
#[derive(Clone, Copy, PartialEq, Eq, Debug)]
pub struct Arrow {
    pub from: usize,
    pub to: usize,
    pub label: &'static str,
    pub is_message: bool,
}

/// What a step wrote and nobody took.
#[derive(Clone, PartialEq, Eq, Debug)]
pub struct Untaken {
    pub step: usize,
    pub text: String,
}

#[derive(Clone, Debug, Default)]
pub struct Course {
    pub sites: u64,
    /// By site, its first and its last key.
    pub keys: Vec<(u64, u64)>,
    pub steps: Vec<Step>,
    pub arrows: Vec<Arrow>,
    pub untaken: Vec<Untaken>,
    /// Lines of the whole script.
    pub lines: usize,
}

/// Steps that wrote what is not taken yet.
#[derive(Default)]
struct UnderWay {
    /// By sender, receiver and channel number.
    messages: BTreeMap<(u64, u64, u64), (usize, Kind)>,
    logs: BTreeMap<u64, VecDeque<(usize, &'static str)>>,
    stream: Vec<usize>,
    /// Merged records that each copy has taken.
    replayed: BTreeMap<u64, usize>,
}

/// Runs the first lines of a script in a house of its own.
pub fn follow(script: &[u8], without_copies: bool) -> Course {
    let lines = lines(script);
    let mut course = Course { lines: lines.len(), ..Course::default() };
    let mut under_way = UnderWay::default();
    let mut house = House::new(Told::default());
    house.without_copies = without_copies;
    for line in lines.iter().take(MOST_EVENTS) {
        let answer = house.line(line, &mut String::new());
        let told = std::mem::take(&mut house.observer);
        let command = Command::parse(line);
        if let (Some(command), Ok(_)) = (command, &answer) {
            if let (Command::Sites { sites, .. }, Some(running)) = (command, &house.running) {
                let table = running.world.merger.table;
                let ends = |site| (table.keys(site).start, table.keys(site).end - 1);
                (course.sites, course.keys) = (sites, (1..=sites).map(ends).collect());
            }
            let step = course.steps.len();
            course.arrows.extend(under_way.take(command, step, &told));
            under_way.write(command, step, &told);
        }
        course.steps.push(Step {
            line: plain(line),
            place: command.and_then(|command| place(command, &answer, course.sites)),
            did: wording::did(command, &answer, &told),
        });
    }
    course.untaken = under_way.untaken();
    course
}

/// Lines end with a line feed; the last may lack it.
fn lines(script: &[u8]) -> Vec<&[u8]> {
    let mut lines: Vec<&[u8]> = script.split(|&byte| byte == b'\n').collect();
    if lines.last().is_some_and(|line| line.is_empty()) {
        lines.pop();
    }
    lines
}

/// The line with `?` for every byte that does not print.
fn plain(line: &[u8]) -> String {
    let printed = |&byte: &u8| if matches!(byte, b' '..=b'~') { byte as char } else { '?' };
    line.iter().map(printed).collect()
}

fn place(command: Command, answer: &Result<Answer, Refusal>, sites: u64) -> Option<Place> {
    let site = |site: u64| is_site(site, sites).then_some(Place::Site(site));
    match command {
        Command::Sites { .. } => None,
        Command::Begin { site: own, .. }
        | Command::Read { site: own, .. }
        | Command::Write { site: own, .. }
        | Command::Take { to: own, .. }
        | Command::Install(own)
        | Command::Report(own) => site(own),
        Command::Enlist { transaction, .. }
        | Command::Commit(transaction)
        | Command::Abandon(transaction) => site(coordinator_of(transaction)),
        Command::Merge(_) | Command::Emit => (sites > 0).then_some(Place::Merger),
        // An impossible line uses no copy.
        Command::Replay(copy) | Command::Value { copy, .. } => {
            (*answer != Err(Refusal::Impossible)).then_some(Place::Copy(copy))
        }
    }
}

impl UnderWay {
    /// The arrow of what an accepted line took.
    fn take(&mut self, command: Command, step: usize, told: &Told) -> Option<Arrow> {
        let (from, label) = match command {
            Command::Take { from, to } => {
                let message = read_message(&told.taken)?;
                let (from, kind) = self.messages.remove(&(from, to, message.channel))?;
                (from, kind.name())
            }
            Command::Merge(site) => self.logs.get_mut(&site)?.pop_front()?,
            Command::Replay(copy) => {
                let replayed = self.replayed.entry(copy).or_default();
                *replayed += 1;
                (*self.stream.get(*replayed - 1)?, "merged")
            }
            _ => return None,
        };
        let is_message = matches!(command, Command::Take { .. });
        Some(Arrow { from, to: step, label, is_message })
    }

    /// Keeps what an accepted line wrote.
    fn write(&mut self, command: Command, step: usize, told: &Told) {
        match command {
            Command::Install(site) => self.logs.entry(site).or_default().push_back((step, "part")),
            Command::Report(site) => self.logs.entry(site).or_default().push_back((step, "state")),
            Command::Emit => self.stream.push(step),
            _ => {
                for message in messages(&told.written).filter_map(read_message) {
                    let name = (message.from, message.to, message.channel);
                    self.messages.insert(name, (step, message.kind));
                }
            }
        }
    }

    /// One text for each step, by step ascending.
    fn untaken(&self) -> Vec<Untaken> {
        let mut sent: BTreeMap<usize, (Kind, Vec<String>)> = BTreeMap::new();
        for (&(_, to, _), &(step, kind)) in &self.messages {
            sent.entry(step).or_insert((kind, Vec::new())).1.push(to.to_string());
        }
        let sent = sent
            .into_iter()
            .map(|(step, (kind, to))| (step, format!("{} to {}", kind.name(), to.join(", "))));
        let logged = self.logs.values().flatten();
        let logged = logged.map(|&(step, label)| (step, format!("{label} to the merger")));
        let replayed = self.replayed.values().copied().max().unwrap_or(0);
        let emitted = self.stream.iter().skip(replayed);
        let emitted = emitted.map(|&step| (step, "merged to a copy".to_string()));
        let mut untaken: Vec<Untaken> =
            sent.chain(logged).chain(emitted).map(|(step, text)| Untaken { step, text }).collect();
        untaken.sort_by_key(|untaken| untaken.step);
        untaken
    }
}
