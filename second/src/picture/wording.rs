//! What a picture says of a step, and of the numbers of refusals and aborts.

use crate::answer::{reason, Decision, Pair, Refusal};
use crate::desk::Desk;
use crate::house::messages;
use crate::message::{Kind, Message};
use crate::record::LogRecord;
use crate::script::Command;
use crate::sizes::*;
use crate::trace::{read_message, Told};
use crate::world::Answer;

#[derive(Clone, Copy, PartialEq, Eq, PartialOrd, Ord, Debug)]
pub enum Look {
    Plain,
    Begin,
    Commit,
    Abort(u64),
    /// Installed, emitted or replayed.
    Kept,
    Refused(u64),
}

/// What a step did.
#[derive(Clone, PartialEq, Eq, Debug)]
pub struct Did {
    pub look: Look,
    pub transaction: Option<u64>,
    pub text: String,
}

impl Did {
    fn new(look: Look, transaction: u64, text: String) -> Self {
        Did { look, transaction: Some(transaction), text }
    }

    fn plain(transaction: u64, text: String) -> Self {
        Did::new(Look::Plain, transaction, text)
    }
}

pub fn did(command: Option<Command>, answer: &Result<Answer, Refusal>, told: &Told) -> Did {
    match (answer, command) {
        (Err(refusal), _) => {
            let number = refusal.number();
            let text = format!("\u{d7} {number}");
            Did { look: Look::Refused(number), transaction: None, text }
        }
        (Ok(answer), Some(command)) => {
            let did = accepted(command, answer, told);
            did.unwrap_or(Did { look: Look::Plain, transaction: None, text: String::new() })
        }
        (Ok(_), None) => unreachable!("a line that is no command is refused"),
    }
}

fn accepted(command: Command, answer: &Answer, told: &Told) -> Option<Did> {
    if let Some(decided) = decided(command, answer, told) {
        return Some(decided);
    }
    Some(match (command, *answer) {
        (Command::Begin { desk, .. }, Answer::Begun(transaction)) => {
            Did::new(Look::Begin, transaction, at_desk("begins", desk))
        }
        (Command::Enlist { transaction, target }, _) => {
            Did::plain(transaction, format!("enlists site {target}"))
        }
        (Command::Read { transaction, key, .. }, Answer::Value(value)) => {
            Did::plain(transaction, format!("reads key {key}: {value}"))
        }
        (Command::Write { transaction, key, value, .. }, _) => {
            Did::plain(transaction, format!("writes key {key}: {value}"))
        }
        (Command::Commit(transaction), _) => Did::plain(transaction, "asks to commit".to_string()),
        (Command::Take { .. }, _) => took(&read_message(&told.taken)?, told),
        (Command::Merge(_), _) => merged(&told.read_log(&told.taken)?),
        _ => return recorded(command, answer, told),
    })
}

/// The steps that write or take a record, and reads at a copy.
fn recorded(command: Command, answer: &Answer, told: &Told) -> Option<Did> {
    Some(match (command, *answer) {
        (_, Answer::Installed(done)) => match told.read_log(&told.written)? {
            LogRecord::Part { save, .. } => {
                Did::new(Look::Kept, save.transaction, format!("installs {}", shown(done.pair)))
            }
            LogRecord::State { .. } => return None,
        },
        (_, Answer::Reported(report)) => stated(format!("reports state {}", report.state)),
        (_, Answer::Emitted(emitted)) => {
            let text = format!("emits {}", shown(emitted.pair));
            Did::new(Look::Kept, emitted.transaction, text)
        }
        (_, Answer::Replayed(pair)) => {
            let save = crate::record::parse_merged(&told.taken).ok()?;
            Did::new(Look::Kept, save.transaction, format!("replays {}", shown(pair)))
        }
        (Command::Value { key, .. }, Answer::CopyValue(value, pair)) => {
            stated(format!("key {key}: {value} at {}", shown(pair)))
        }
        _ => return None,
    })
}

fn stated(text: String) -> Did {
    Did { look: Look::Plain, transaction: None, text }
}

/// The line in which a decision falls.
fn decided(command: Command, answer: &Answer, told: &Told) -> Option<Did> {
    let transaction = match command {
        Command::Commit(transaction) | Command::Abandon(transaction) => transaction,
        _ => read_message(&told.taken)?.transaction,
    };
    Some(match answer.decision()? {
        Decision::Commit(number) => Did::new(Look::Commit, transaction, format!("commit {number}")),
        Decision::Abort(reason) => {
            Did::new(Look::Abort(reason), transaction, format!("abort {reason}"))
        }
    })
}

/// A message in which no decision fell.
fn took(message: &Message, told: &Told) -> Did {
    let reply = messages(&told.written).filter_map(read_message).next();
    let from = message.from;
    let (look, text) = match (message.kind, reply.map(|reply| (reply.kind, reply.argument))) {
        (Kind::Join, Some((_, 0))) => (Look::Begin, at_desk("joins", message.argument)),
        (Kind::Join, _) => (Look::Plain, "has no room".to_string()),
        (Kind::Prepare, Some((Kind::Conc, _))) => (Look::Plain, "is prepared".to_string()),
        (Kind::Cert, Some((_, 0))) => (Look::Plain, "votes yes".to_string()),
        (Kind::Prepare | Kind::Cert, Some((_, no))) => (Look::Plain, format!("votes no: {no}")),
        (Kind::Commit, _) => (Look::Plain, format!("learns commit {}", message.clock)),
        (Kind::Abort, _) => (Look::Plain, "learns abort".to_string()),
        _ if !told.held => (Look::Plain, "is over already".to_string()),
        (Kind::Joined, _) if message.argument == reason::LIVE_FULL => {
            (Look::Plain, format!("site {from} has no room"))
        }
        (Kind::Joined, _) => (Look::Plain, format!("site {from} joined")),
        (Kind::Conc, Some(_)) => (Look::Plain, "asks for votes".to_string()),
        (Kind::Conc, None) => (Look::Plain, format!("list of site {from}")),
        (Kind::Vote, _) => (Look::Plain, format!("yes of site {from}")),
        (Kind::Prepare | Kind::Cert, None) => (Look::Plain, "is prepared".to_string()),
    };
    Did::new(look, message.transaction, text)
}

/// The house desk goes without saying.
fn at_desk(text: &str, desk: u64) -> String {
    match Desk::of(desk) {
        Some(Desk::Proofing) => format!("{text}, proofing desk"),
        _ => text.to_string(),
    }
}

fn merged(record: &LogRecord) -> Did {
    match record {
        LogRecord::Part { site, save } => {
            Did::plain(save.transaction, format!("part of site {site}"))
        }
        LogRecord::State { site, number } => stated(format!("site {site} is at state {number}")),
    }
}

fn shown(pair: Pair) -> String {
    format!("({}, {})", pair.number, pair.coordinator)
}

/// A transaction by its coordinator and serial.
pub fn name(transaction: u64) -> String {
    format!("T{}.{}", coordinator_of(transaction), serial_of(transaction))
}

/// The causes (N3), in their order.
pub fn cause(number: u64) -> &'static str {
    match number {
        2 => "impossible line, site, desk, key or count",
        22 => "a bad table of first keys",
        3 => "a key of another site",
        5 => "the transaction is not held here",
        26 => "the call belongs to the coordinator, which this site is not",
        27 => "the stage does not allow the call",
        7 => "a JOINED is outstanding",
        8 => "an install after the snapshot is forgotten",
        9 => "another transaction holds the key",
        10 => "the key has a version newer than the snapshot",
        11 => "a 17th key, or a 5th written for the proofing desk",
        29 => "start plus length is above 2^64 − 1",
        12 => "16 transactions are live at the site",
        13 => "a count is spent",
        14 => "not above the last one",
        15 => "a 17th queued part",
        16 => "parts of one save disagree",
        17 => "nothing there to take, install, merge, emit or replay",
        18 => "a save was seen at one site and missed at another",
        19 => "what the vote needs is forgotten",
        20 => "abandoned by its client",
        _ => "no number of the rules",
    }
}
