//! What a line took or wrote, behind its output line: messages and records in short.

use std::fmt::Write;

use crate::answer::Refusal;
use crate::house::{House, Observer};
use crate::message::{Entry, Message};
use crate::record::{parse_log, parse_merged, LogRecord, Save};
use crate::sizes::*;
use crate::table::Table;
use crate::world::{Answer, Call, World};

/// Writes of a record that a trace shows.
const SHOWN_WRITES: usize = 4;

/// The words that the last call took and wrote.
#[derive(Clone, Debug, Default)]
pub struct Told {
    pub taken: Vec<u64>,
    pub written: Vec<u64>,
    /// After a message: whether the site holds its transaction.
    pub held: bool,
    /// Where the keys of the house live.
    table: Option<Table>,
}

impl Told {
    /// A log's record of this house.
    pub fn read_log(&self, words: &[u64]) -> Option<LogRecord> {
        parse_log(words, self.table.as_ref()?).ok()
    }
}

impl Observer for Told {
    fn called(
        &mut self,
        call: &Call,
        _answer: &Result<Answer, Refusal>,
        written: &[u64],
        world: &World,
    ) {
        let taken = match *call {
            Call::Message { words, .. } | Call::Merge { words } | Call::Replay { words, .. } => {
                words
            }
            _ => &[],
        };
        self.taken = taken.to_vec();
        self.written = written.to_vec();
        self.table = Some(world.merger.table);
        self.held = match *call {
            Call::Message { site, words } => read_message(words)
                .is_some_and(|it| world.sites[site as usize - 1].find(it.transaction).is_some()),
            _ => false,
        };
    }
}

/// Obeys one line and appends its output line with what was taken or written.
pub fn line(house: &mut House<Told>, line: &[u8], output: &mut String) {
    let answer = house.line(line, output);
    let shown = answer.ok().and_then(|answer| shown(&answer, &house.observer));
    if let Some(shown) = shown {
        output.pop();
        output.push_str(" ; ");
        output.push_str(&shown);
        output.push('\n');
    }
    house.observer = Told::default();
}

fn shown(answer: &Answer, told: &Told) -> Option<String> {
    match answer {
        Answer::Sent(_) => read_message(&told.taken).map(|it| message(&it)),
        Answer::Installed(_) | Answer::Reported(_) => told.read_log(&told.written).map(log_record),
        Answer::Done => told.read_log(&told.taken).map(log_record),
        Answer::Emitted(_) => merged_record(&told.written),
        Answer::Replayed(_) => merged_record(&told.taken),
        _ => None,
    }
}

/// A message of a house of any size.
pub fn read_message(words: &[u64]) -> Option<Message<'_>> {
    Message::parse(words, SITES as u64).ok()
}

fn message(message: &Message) -> String {
    let Message { kind, from, to, channel, transaction, .. } = message;
    let mut text =
        format!("{} from {from} to {to} channel {channel} transaction {transaction}", kind.name());
    // Writing to a String cannot fail.
    if kind.carries_clock() {
        let _ = write!(text, " clock {}", message.clock);
    }
    if kind.carries_argument() {
        let _ = write!(text, " argument {}", message.argument);
    }
    if kind.carries_entries() {
        let entries: Vec<String> = message.entries().map(entry).collect();
        let _ = write!(text, " entries {}", entries.len());
        listed(&mut text, &entries);
    }
    text
}

fn entry(entry: Entry) -> String {
    let Entry { transaction, participants, marked } = entry;
    format!("{transaction} participants {participants} mark {}", u64::from(marked))
}

fn log_record(record: LogRecord) -> String {
    match record {
        LogRecord::Part { site, save } => format!("part site {site} {}", saved(&save)),
        LogRecord::State { site, number } => format!("state site {site} number {number}"),
    }
}

fn merged_record(words: &[u64]) -> Option<String> {
    parse_merged(words).ok().map(|save| format!("merged {}", saved(&save)))
}

fn saved(save: &Save) -> String {
    let Save { pair, transaction, participants, writes } = save;
    let mut text = format!(
        "pair {} {} transaction {transaction} participants {participants} writes {}",
        pair.number,
        pair.coordinator,
        writes.len()
    );
    let mut shown: Vec<String> =
        writes.iter().take(SHOWN_WRITES).map(|(key, value)| format!("{key} = {value}")).collect();
    if writes.len() > SHOWN_WRITES {
        shown.push("..".to_string());
    }
    listed(&mut text, &shown);
    text
}

fn listed(text: &mut String, items: &[String]) {
    if !items.is_empty() {
        text.push_str(": ");
        text.push_str(&items.join(", "));
    }
}
