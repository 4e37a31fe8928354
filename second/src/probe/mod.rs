//! Probes: one house of sites, a merger and two copies, each call with the words
//! that it is lent, states poked to any number, and after each line checksums of
//! what it left. The program `probe` over the proved store obeys the same lines.

mod claimed;
mod converted;
mod hand;
pub(crate) mod handed;
mod lent;
pub mod line;
mod listed;
mod queued;
pub mod random;
pub mod sums;
mod tabled;
mod told;
pub mod triples;
mod valued;
mod written;

use std::fmt::Write;

use crate::answer::{require, Refusal};
use crate::copy::Copy;
use crate::desk::Desk;
use crate::merger::Merger;
use crate::site::Site;
use crate::sizes::*;
use crate::value::Value;
use crate::world::Answer;
use hand::Hand;
use handed::Handed;
use lent::{Lent, COPY, COPY_HEADER, QUEUES, WHOLE};
use line::Line;
use queued::Queued;
use tabled::Lending;
use told::tell;

const COPIES: usize = 2;

pub struct Probe {
    sites: Vec<Handed>,
    merger: Queued,
    copies: Vec<Copy>,
    hand: Hand,
    lent: Lent,
    table: Lending,
}

/// What a call left: whether its state is the same, and the state's checksum.
struct Done {
    answer: Result<Answer, Refusal>,
    /// Whether the site or copy is there to be called.
    found: bool,
    same: bool,
    state: u64,
}

impl Probe {
    /// A house of 1 to 8 sites, with the table 0, 256 and so on.
    pub fn new(sites: u64) -> Self {
        Self::house(sites, Lending::default()).expect("1 to 8 sites")
    }

    fn house(sites: u64, mut table: Lending) -> Result<Self, Refusal> {
        table.length = None;
        let firsts = table.firsts(sites);
        let site = |own| Site::start(sites, firsts, own).map(Handed::new);
        Ok(Probe {
            merger: Queued::new(Merger::start(sites, firsts)?),
            sites: (1..=sites).map(site).collect::<Result<_, _>>()?,
            copies: vec![Copy::start(); COPIES],
            hand: Hand::new(),
            lent: WHOLE,
            table,
        })
    }

    /// Obeys a line and appends its output; an error where no probe is meant so.
    pub fn obey(&mut self, event: u64, line: &Line, output: &mut String) -> Result<(), String> {
        match line.verb.as_str() {
            "house" => {
                // A house that cannot start is a remark.
                if let Ok(probe) = Self::house(line.numbers[0], self.table.clone()) {
                    *self = probe;
                }
            }
            "table" => self.table.set(line.numbers[0], line.numbers[1]),
            "tables" => self.table.length = Some(line.numbers[0]),
            "room" | "places" | "slots" | "base" | "lists" | "queues" | "copies" => {
                self.lent.set(line)
            }
            "site" | "live" | "past" | "list" | "merger" | "source" | "queued" | "copied" => {
                let answer = self.poke(line)?;
                tell(output, event, &answer.map(|()| Answer::Done));
                output.push('\n');
            }
            "letter" | "record" | "word" | "cut" | "head" | "entries" | "form" | "writes" => {
                let found = self.hand.shape(line);
                let words = self.hand.words();
                let sum = sums::words(0, words);
                // Writing to a String cannot fail.
                let _ = match found {
                    true => writeln!(output, "{event} ok {} {sum}", words.len()),
                    false => writeln!(output, "{event} refused {}", Refusal::Nothing.number()),
                };
            }
            "page" | "offset" | "run" => converted::obey(event, line, self.hand.words(), output),
            "bytes" => written::obey(event, line.numbers[0], self.hand.words(), output),
            _ => {
                let (done, buffer) = self.called(line);
                tell(output, event, &done.answer);
                let words = done.answer.map_or(0, |answer| answer.words());
                let same = u64::from(done.same);
                let _ = writeln!(output, " ; {words} {buffer} {same} {}", done.state);
            }
        }
        Ok(())
    }

    fn poke(&mut self, line: &Line) -> Result<Result<(), Refusal>, String> {
        match (line.verb.as_str(), line.numbers.as_slice()) {
            ("merger", &[field, value]) => self.merger.poke(field, value)?,
            ("source", &[site, field, value]) => self.merger.poke_source(site, field, value)?,
            ("queued", &[site, place, value]) => self.merger.poke_queue(site, place, value)?,
            ("copied", &[copy, place, value]) => {
                let Some(copy) = at(&mut self.copies, copy) else {
                    return Ok(Err(Refusal::Impossible));
                };
                let word = word_of(copy, place).ok_or("a word of no copy")?;
                *word = value;
            }
            (verb, &[site, ref rest @ ..]) => {
                let Some(site) = at(&mut self.sites, site) else {
                    return Ok(Err(Refusal::Impossible));
                };
                match (verb, rest) {
                    ("site", &[field, value]) => site.poke(field, value),
                    ("live", &[transaction, field, value]) => {
                        return site.poke_live(transaction, field, value);
                    }
                    ("list", &[transaction, word, value]) => {
                        return Ok(site.plant(transaction, word, value));
                    }
                    ("past", &[count, field, value]) => {
                        return site.poke_past(count, field, value);
                    }
                    _ => return Err("not a poke".to_string()),
                }
            }
            _ => return Err("not a poke".to_string()),
        }
        Ok(Ok(()))
    }

    /// Makes a call, keeps what it wrote, and sums its outgoing buffer, if it has one.
    fn called(&mut self, line: &Line) -> (Done, u64) {
        let verb = line.verb.as_str();
        let mut buffer = lent::buffer(self.lent.room);
        let done = match verb {
            "merge" | "emit" | "open" => self.at_merger(line, &mut buffer),
            "replay" | "value" | "blank" => self.at_copy(line),
            _ => self.at_site(line, &mut buffer),
        };
        let words = done.answer.map_or(0, |answer| answer.words());
        match verb {
            "install" | "report" | "emit" => self.hand.keep_record(&buffer[..words]),
            "enlist" | "commit" | "abandon" | "message" => {
                self.hand.keep_letters(&buffer[..words]);
            }
            _ => return (done, 0),
        }
        let sum = if done.found { sums::words(0, &buffer) } else { 0 };
        (done, sum)
    }

    fn at_site(&mut self, line: &Line, out: &mut [u64]) -> Done {
        let Some(handed) = at(&mut self.sites, line.numbers[0]) else { return missing() };
        let before = handed.clone();
        let words = Words { hand: self.hand.words(), table: &self.table };
        let answer = site_call(handed, line, words, &self.lent, out);
        if answer.is_ok() {
            handed.follow(&before.site);
        }
        let same = before == *handed;
        let state = answer.map_or(0, |_| sums::site(&handed.site));
        Done { answer, found: true, same, state }
    }

    fn at_merger(&mut self, line: &Line, out: &mut [u64]) -> Done {
        let before = self.merger.clone();
        let lent = self.lent.queues == QUEUES;
        let words = Words { hand: self.hand.words(), table: &self.table };
        let answer = merger_call(&mut self.merger, line, words, lent, out);
        let same = before == self.merger;
        let state = answer.map_or(0, |_| self.merger.sum());
        Done { answer, found: true, same, state }
    }

    fn at_copy(&mut self, line: &Line) -> Done {
        let Some(copy) = at(&mut self.copies, line.numbers[0]) else { return missing() };
        let before = copy.clone();
        let lent = self.lent.copy == COPY;
        let answer = require(lent, Refusal::Impossible).and_then(|()| match line.verb.as_str() {
            "replay" => copy.replay(self.hand.words()).map(Answer::Replayed),
            "value" => {
                copy.value(line.numbers[1]).map(|(value, pair)| Answer::CopyValue(value, pair))
            }
            _ => {
                *copy = Copy::start();
                Ok(Answer::Done)
            }
        });
        let same = before == *copy;
        let state = answer.map_or(0, |_| sums::copy(copy));
        Done { answer, found: true, same, state }
    }
}

/// Words lent beside a state: those in hand, or the first keys at a start.
#[derive(Clone, Copy)]
struct Words<'a> {
    hand: &'a [u64],
    table: &'a Lending,
}

fn missing() -> Done {
    Done { answer: Err(Refusal::Impossible), found: false, same: true, state: 0 }
}

/// Q12.4: number, coordinator, then start and length of each key's value.
fn word_of(copy: &mut Copy, place: u64) -> Option<&mut u64> {
    let place = usize::try_from(place).ok()?;
    let Some(behind) = place.checked_sub(COPY_HEADER) else {
        return Some(if place == 0 { &mut copy.last.number } else { &mut copy.last.coordinator });
    };
    let value = copy.values.get_mut(behind / VALUE_WORDS)?;
    Some(if behind % VALUE_WORDS == 0 { &mut value.start } else { &mut value.length })
}

/// Sites and copies count from 1.
fn at<T>(list: &mut [T], number: u64) -> Option<&mut T> {
    let place = usize::try_from(number).ok()?.checked_sub(1)?;
    list.get_mut(place)
}

/// A short buffer goes before a state or a lent table past its size.
fn site_call(
    handed: &mut Handed,
    line: &Line,
    words: Words,
    lent: &Lent,
    out: &mut [u64],
) -> Result<Answer, Refusal> {
    let (wanted, whole) = lent.wanted(&line.verb);
    require(out.len() >= wanted, Refusal::BufferTooShort)?;
    require(whole, Refusal::Impossible)?;
    if let ("start", &[_, sites, own]) = (line.verb.as_str(), line.numbers.as_slice()) {
        *handed = Handed::new(Site::start(sites, words.table.firsts(sites), own)?);
        return Ok(Answer::Done);
    }
    require(handed.is_within_sizes(), Refusal::Impossible)?;
    if matches!(line.verb.as_str(), "commit" | "message") {
        require(handed.has_possible_lists(), Refusal::Impossible)?;
    }
    let site = &mut handed.site;
    match (line.verb.as_str(), &line.numbers[1..]) {
        ("begin", &[]) => site.begin(Desk::House.number()).map(Answer::Begun),
        ("begin", &[desk]) => site.begin(desk).map(Answer::Begun),
        ("enlist", &[transaction, target]) => {
            site.enlist(transaction, target, out).map(Answer::Sent)
        }
        ("read", &[transaction, key]) => site.read(transaction, key).map(Answer::Value),
        ("search", &[snapshot, key]) => site.search(snapshot, key).map(Answer::Found),
        ("write", &[transaction, key, start, length]) => {
            site.write(transaction, key, Value::new(start, length)).map(|()| Answer::Done)
        }
        ("commit", &[transaction]) => site.commit(transaction, out).map(Answer::Sent),
        ("abandon", &[transaction]) => site.abandon(transaction, out).map(Answer::Sent),
        ("message", _) => site.message(words.hand, out).map(Answer::Sent),
        ("install", _) => site.install(out).map(Answer::Installed),
        _ => site.report(out).map(Answer::Reported),
    }
}

fn merger_call(
    queued: &mut Queued,
    line: &Line,
    words: Words,
    lent: bool,
    out: &mut [u64],
) -> Result<Answer, Refusal> {
    if line.verb == "emit" {
        require(out.len() >= MERGED_BUFFER, Refusal::BufferTooShort)?;
    }
    require(lent, Refusal::Impossible)?;
    if line.verb == "open" {
        let sites = line.numbers[0];
        *queued = Queued::new(Merger::start(sites, words.table.firsts(sites))?);
        return Ok(Answer::Done);
    }
    require(queued.is_within_sizes(), Refusal::Impossible)?;
    match line.verb.as_str() {
        "merge" => queued.merger.merge(words.hand).map(|()| Answer::Done),
        _ => queued.merger.emit(out).map(Answer::Emitted),
    }
}
