//! What the tests share: scripts with their outputs, and calls with a buffer.
#![allow(dead_code)]

pub mod bytes;
pub mod probed;
pub mod stages;

use second::answer::{Decision, Refusal, Sent};
use second::desk::Desk;
use second::house::{messages, House};
use second::merger::Merger;
use second::site::{Footprint, Installed, Part, Site, Stage};
use second::sizes::*;
use second::table::even;
use second::value::Value;

/// The desks by number.
pub const HOUSE: u64 = Desk::House as u64;
pub const PROOFING: u64 = Desk::Proofing as u64;

/// A value of length 0.
pub fn bare(start: u64) -> Value {
    Value::new(start, 0)
}

/// Output lines of a script, without their numbers.
pub fn outputs(script: &str) -> Vec<String> {
    let mut house = House::new(());
    let mut text = String::new();
    for line in script.lines() {
        let _ = house.line(line.as_bytes(), &mut text);
    }
    text.lines().map(|line| line.split_once(' ').unwrap().1.to_string()).collect()
}

/// Runs lines that stand beside their outputs: `line => output`.
pub fn play(script: &str) {
    let lines: Vec<&str> = script.lines().map(str::trim).filter(|line| !line.is_empty()).collect();
    let pairs: Vec<(&str, &str)> =
        lines.iter().map(|line| line.split_once(" => ").unwrap_or((line, "ok"))).collect();
    let said: Vec<&str> = pairs.iter().map(|pair| pair.0).collect();
    for (given, (line, due)) in outputs(&said.join("\n")).iter().zip(&pairs) {
        assert_eq!(given, due, "at `{line}`");
    }
}

pub fn buffer() -> Vec<u64> {
    vec![0; SEND_BUFFER]
}

/// A site and a merger with the table 0, 256 and so on.
pub fn site(sites: u64, own: u64) -> Site {
    Site::start(sites, &even(sites), own).unwrap()
}

pub fn merger(sites: u64) -> Merger {
    Merger::start(sites, &even(sites)).unwrap()
}

/// A call on a site that sends: its decision and its messages.
pub fn sent(
    site: &mut Site,
    call: impl FnOnce(&mut Site, &mut [u64]) -> Result<Sent, Refusal>,
) -> (Option<Decision>, Vec<Vec<u64>>) {
    let mut out = buffer();
    let sent = call(site, &mut out).unwrap();
    let written = messages(&out[..sent.words]).map(<[u64]>::to_vec).collect();
    (sent.decision, written)
}

pub fn take(site: &mut Site, words: &[u64]) -> (Option<Decision>, Vec<Vec<u64>>) {
    sent(site, |site, out| site.message(words, out))
}

/// The call is refused, and neither site nor buffer is altered.
pub fn refused<T: std::fmt::Debug>(
    site: &Site,
    length: usize,
    number: u64,
    call: impl FnOnce(&mut Site, &mut [u64]) -> Result<T, Refusal>,
) {
    let mut after = site.clone();
    let mut out = vec![9; length];
    assert_eq!(call(&mut after, &mut out).unwrap_err().number(), number);
    assert_eq!(&after, site, "a refused call altered the site");
    assert!(out.iter().all(|&word| word == 9), "a refused call altered the buffer");
}

/// The header of a message, channel 1, nothing in the words behind.
pub fn message(kind: u64, from: u64, to: u64, transaction: u64) -> Vec<u64> {
    vec![10, kind, from, to, 1, transaction, 0, 0, 0, 0]
}

/// Each key is written with a start, at length 0.
pub fn footprint(reads: &[u64], writes: &[(u64, u64)]) -> Footprint {
    let mut footprint = Footprint::default();
    reads.iter().for_each(|&key| footprint.reads.insert(key));
    writes.iter().for_each(|&(key, start)| footprint.put(key, bare(start)));
    footprint
}

pub fn installed(install: u64, transaction: u64, writes: &[(u64, u64)]) -> Installed {
    Installed { install, transaction, participants: 1, footprint: footprint(&[], writes) }
}

pub fn queued(transaction: u64, stage: Stage) -> Part {
    let participants = site_bit(coordinator_of(transaction)) | 1;
    Part { stage, ..Part::begin(transaction, 0, participants, Desk::House) }
}
