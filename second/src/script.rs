//! Lines of a `house` script (H1 to H20, Q3.7, Q10.7, Q12.8).

use crate::desk::Desk;
use crate::sizes::SITES;
use crate::table;
use crate::value::Value;

/// The most numbers of a line: a count of sites and their first keys.
const NUMBERS: usize = 1 + SITES;

/// The first keys of a `sites` line: at most eight.
#[derive(Clone, Copy, PartialEq, Eq, Debug)]
pub struct Firsts {
    keys: [u64; SITES],
    count: usize,
}

impl Firsts {
    fn of(given: &[u64]) -> Self {
        let mut keys = [0; SITES];
        keys[..given.len()].copy_from_slice(given);
        Firsts { keys, count: given.len() }
    }

    pub fn keys(&self) -> &[u64] {
        &self.keys[..self.count]
    }
}

/// A line that has a command's form; whether it can be obeyed is asked later.
#[derive(Clone, Copy, PartialEq, Eq, Debug)]
pub enum Command {
    Sites { sites: u64, firsts: Firsts },
    Begin { site: u64, desk: u64 },
    Enlist { transaction: u64, target: u64 },
    Read { site: u64, transaction: u64, key: u64 },
    Write { site: u64, transaction: u64, key: u64, value: Value },
    Commit(u64),
    Abandon(u64),
    Take { from: u64, to: u64 },
    Install(u64),
    Report(u64),
    Merge(u64),
    Emit,
    Replay(u64),
    Value { copy: u64, key: u64 },
}

impl Command {
    /// One space between words; decimal numbers below 2^64.
    pub fn parse(line: &[u8]) -> Option<Command> {
        let mut words = line.split(|&byte| byte == b' ');
        let name = words.next()?;
        let mut numbers = [0; NUMBERS];
        let mut count = 0;
        for word in words {
            *numbers.get_mut(count)? = number(word)?;
            count += 1;
        }
        Self::form(name, &numbers[..count])
    }

    fn form(name: &[u8], numbers: &[u64]) -> Option<Command> {
        Some(match (name, numbers) {
            (b"sites", &[sites]) => {
                Command::Sites { sites, firsts: Firsts::of(&table::even(sites)) }
            }
            (b"sites", &[sites, ref given @ ..]) => {
                Command::Sites { sites, firsts: Firsts::of(given) }
            }
            (b"begin", &[site]) => Command::Begin { site, desk: Desk::House.number() },
            (b"begin", &[site, desk]) => Command::Begin { site, desk },
            (b"enlist", &[transaction, target]) => Command::Enlist { transaction, target },
            (b"read", &[site, transaction, key]) => Command::Read { site, transaction, key },
            (b"write", &[site, transaction, key, start, length]) => {
                Command::Write { site, transaction, key, value: Value::new(start, length) }
            }
            (b"commit", &[transaction]) => Command::Commit(transaction),
            (b"abandon", &[transaction]) => Command::Abandon(transaction),
            (b"take", &[from, to]) => Command::Take { from, to },
            (b"install", &[site]) => Command::Install(site),
            (b"report", &[site]) => Command::Report(site),
            (b"merge", &[site]) => Command::Merge(site),
            (b"emit", &[]) => Command::Emit,
            (b"replay", &[copy]) => Command::Replay(copy),
            (b"value", &[copy, key]) => Command::Value { copy, key },
            _ => return None,
        })
    }
}

fn number(word: &[u8]) -> Option<u64> {
    if word.is_empty() {
        return None;
    }
    word.iter().try_fold(0u64, |sum, &byte| {
        let digit = byte.is_ascii_digit().then(|| u64::from(byte - b'0'))?;
        sum.checked_mul(10)?.checked_add(digit)
    })
}
