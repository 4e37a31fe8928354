//! The program `house`: obeys script lines, carries messages and records between
//! sites, merger and copies, and words the outcome (H1 to H20, Q3.7, Q12.8).

use std::collections::VecDeque;
use std::fmt::Write;

use crate::answer::{require, Decision, Refusal};
use crate::script::Command;
use crate::sizes::*;
use crate::world::{Answer, Call, World};

/// Is told every call, its answer and the words it wrote.
pub trait Observer {
    fn start(&mut self, _world: &World) {}
    fn called(
        &mut self,
        _call: &Call,
        _answer: &Result<Answer, Refusal>,
        _written: &[u64],
        _world: &World,
    ) {
    }
}

impl Observer for () {}

type Words = Vec<u64>;

/// A house with what is under way in it.
pub struct Running {
    pub world: World,
    /// Untaken messages by sender and receiver.
    pub channels: Vec<Vec<VecDeque<Words>>>,
    /// Records of each site that the merger has not taken.
    pub logs: Vec<VecDeque<Words>>,
    pub stream: Vec<Words>,
    /// Merged records that each copy has taken.
    pub replayed: Vec<usize>,
}

pub struct House<O> {
    pub running: Option<Running>,
    pub observer: O,
    /// The first delivery of the proved program lacks `replay` and `value`.
    pub without_copies: bool,
    buffer: Vec<u64>,
    events: u64,
}

impl<O: Observer> House<O> {
    pub fn new(observer: O) -> Self {
        let buffer = vec![0; SEND_BUFFER];
        House { running: None, observer, without_copies: false, buffer, events: 0 }
    }

    /// Obeys one line and appends its output line.
    pub fn line(&mut self, line: &[u8], output: &mut String) -> Result<Answer, Refusal> {
        self.events += 1;
        let answer = Command::parse(line).ok_or(Refusal::Impossible).and_then(|it| self.obey(it));
        print(self.events, &answer, output);
        answer
    }

    fn obey(&mut self, command: Command) -> Result<Answer, Refusal> {
        if let Command::Sites { sites, firsts } = command {
            require(self.running.is_none(), Refusal::Impossible)?;
            let running = self.running.insert(Running::start(sites, firsts.keys())?);
            self.observer.start(&running.world);
            return Ok(Answer::Done);
        }
        let lacking = matches!(command, Command::Replay(_) | Command::Value { .. });
        require(!(lacking && self.without_copies), Refusal::Impossible)?;
        let running = self.running.as_mut().ok_or(Refusal::Impossible)?;
        // What is handed in leaves its place only when it is taken.
        let handed = running.handed(command)?.map(<[u64]>::to_vec);
        let call = running.route(command, handed.as_deref().unwrap_or_default())?;
        let answer = running.world.call(&call, &mut self.buffer);
        let written = &self.buffer[..answer.map_or(0, |answer| answer.words())];
        if answer.is_ok() {
            running.carry(command, written);
        }
        self.observer.called(&call, &answer, written, &running.world);
        answer
    }
}

impl Running {
    fn start(sites: u64, firsts: &[u64]) -> Result<Self, Refusal> {
        let world = World::start(sites, firsts)?;
        let count = world.sites.len();
        Ok(Running {
            world,
            channels: vec![vec![VecDeque::new(); count]; count],
            logs: vec![VecDeque::new(); count],
            stream: Vec::new(),
            replayed: vec![0; COPIES],
        })
    }

    fn sites(&self) -> u64 {
        self.world.sites.len() as u64
    }

    /// The message or record that a command hands in; none left: 17.
    fn handed(&self, command: Command) -> Result<Option<&[u64]>, Refusal> {
        let next = match command {
            Command::Take { from, to } => {
                let sites = is_site(from, self.sites()) && is_site(to, self.sites());
                require(sites, Refusal::Impossible)?;
                self.channels[from as usize - 1][to as usize - 1].front()
            }
            Command::Merge(site) => {
                require(is_site(site, self.sites()), Refusal::Impossible)?;
                self.logs[site as usize - 1].front()
            }
            Command::Replay(copy) => {
                require(is_site(copy, COPIES as u64), Refusal::Impossible)?;
                self.stream.get(self.replayed[copy as usize - 1])
            }
            _ => return Ok(None),
        };
        next.map(|words| Some(words.as_slice())).ok_or(Refusal::Nothing)
    }

    fn route<'a>(&self, command: Command, words: &'a [u64]) -> Result<Call<'a>, Refusal> {
        Ok(match command {
            Command::Sites { .. } => return Err(Refusal::Impossible),
            Command::Begin { site, desk } => Call::Begin { site, desk },
            Command::Enlist { transaction, target } => {
                require(is_site(target, self.sites()), Refusal::Impossible)?;
                Call::Enlist { site: self.coordinator(transaction)?, transaction, target }
            }
            Command::Read { site, transaction, key } => Call::Read { site, transaction, key },
            Command::Write { site, transaction, key, value } => {
                Call::Write { site, transaction, key, value }
            }
            Command::Commit(transaction) => {
                Call::Commit { site: self.coordinator(transaction)?, transaction }
            }
            Command::Abandon(transaction) => {
                Call::Abandon { site: self.coordinator(transaction)?, transaction }
            }
            Command::Take { to, .. } => Call::Message { site: to, words },
            Command::Install(site) => Call::Install { site },
            Command::Report(site) => Call::Report { site },
            Command::Merge(_) => Call::Merge { words },
            Command::Emit => Call::Emit,
            Command::Replay(copy) => Call::Replay { copy, words },
            Command::Value { copy, key } => Call::Value { copy, key },
        })
    }

    /// Where enlist, commit and abandon go, so that no line prints 26. A number
    /// whose coordinator the house lacks is held nowhere.
    fn coordinator(&self, transaction: u64) -> Result<u64, Refusal> {
        let coordinator = coordinator_of(transaction);
        require(is_site(coordinator, self.sites()), Refusal::NotHeld)?;
        Ok(coordinator)
    }

    /// After an accepted call: what was taken goes, what was written is kept.
    fn carry(&mut self, command: Command, written: &[u64]) {
        match command {
            Command::Take { from, to } => {
                self.channels[from as usize - 1][to as usize - 1].pop_front();
            }
            Command::Merge(site) => {
                self.logs[site as usize - 1].pop_front();
            }
            Command::Replay(copy) => self.replayed[copy as usize - 1] += 1,
            _ => {}
        }
        match command {
            Command::Install(site) | Command::Report(site) => {
                self.logs[site as usize - 1].push_back(written.to_vec());
            }
            Command::Emit => self.stream.push(written.to_vec()),
            _ => {
                for message in messages(written) {
                    let (from, to) = (message[2] as usize, message[3] as usize);
                    self.channels[from - 1][to - 1].push_back(message.to_vec());
                }
            }
        }
    }
}

/// Messages that stand directly behind one another.
pub fn messages(mut words: &[u64]) -> impl Iterator<Item = &[u64]> {
    std::iter::from_fn(move || {
        let length = *words.first()? as usize;
        let (message, rest) = words.split_at(length);
        words = rest;
        Some(message)
    })
}

fn print(event: u64, answer: &Result<Answer, Refusal>, output: &mut String) {
    // Writing to a String cannot fail.
    let _ = match answer {
        Err(refusal) => writeln!(output, "{event} refused {}", refusal.number()),
        Ok(answer) => match *answer {
            Answer::Done => writeln!(output, "{event} ok"),
            Answer::Begun(number) => writeln!(output, "{event} ok {number}"),
            Answer::Value(value) => writeln!(output, "{event} ok {value}"),
            Answer::Sent(sent) => match sent.decision {
                None => writeln!(output, "{event} ok"),
                Some(Decision::Commit(number)) => writeln!(output, "{event} ok {number}"),
                Some(Decision::Abort(reason)) => writeln!(output, "{event} ok abort {reason}"),
            },
            Answer::Installed(done) => {
                writeln!(output, "{event} ok {} {}", done.pair.number, done.pair.coordinator)
            }
            Answer::Reported(report) => writeln!(output, "{event} ok {}", report.state),
            Answer::Emitted(emitted) => {
                let pair = emitted.pair;
                let transaction = emitted.transaction;
                writeln!(output, "{event} ok {} {} {transaction}", pair.number, pair.coordinator)
            }
            Answer::Replayed(pair) => {
                writeln!(output, "{event} ok {} {}", pair.number, pair.coordinator)
            }
            Answer::CopyValue(value, pair) => {
                writeln!(output, "{event} ok {value} {} {}", pair.number, pair.coordinator)
            }
            Answer::Found(found) => {
                writeln!(output, "{event} ok {} {}", found.value, found.looked_at)
            }
        },
    };
}
