//! `second-probe [FILE..]`: obeys the probe on standard input, or each file as a
//! probe of its own. A line that is neither a probe nor a remark ends it.
//! `second-probe --random SEED [LINES]` prints a random probe, and
//! `second-probe --triples SEED N [FIRST]` one of N random triples, from FIRST on.

use std::io::{self, Read, Write};
use std::process::ExitCode;

use second::probe::line::parse;
use second::probe::{random, triples, Probe};

const LINES: u64 = 1_500;

fn obey(text: &str, output: &mut String) -> Result<(), String> {
    let mut probe = Probe::new(1);
    for (place, line) in text.lines().enumerate() {
        let event = place as u64 + 1;
        let said = parse(line).and_then(|line| match line {
            Some(line) => probe.obey(event, &line, output),
            None => Ok(()),
        });
        said.map_err(|error| format!("line {event}: {error}"))?;
    }
    Ok(())
}

/// The probe that the arguments ask for, if they ask for one.
fn made(arguments: &[String]) -> Result<Option<String>, String> {
    let number = |place: usize| arguments.get(place).and_then(|word| word.parse().ok());
    match arguments.first().map(String::as_str) {
        Some("--random") => {
            let seed = number(1).ok_or("usage: second-probe --random SEED [LINES]")?;
            Ok(Some(random::probe(seed, number(2).unwrap_or(LINES))))
        }
        Some("--triples") => {
            let usage = "usage: second-probe --triples SEED N [FIRST]";
            let (seed, count) = number(1).zip(number(2)).ok_or(usage)?;
            Ok(Some(triples::probe(seed, count, number(3).unwrap_or(0))))
        }
        _ => Ok(None),
    }
}

fn run() -> Result<(), String> {
    let files: Vec<String> = std::env::args().skip(1).collect();
    let mut output = String::new();
    if let Some(probe) = made(&files)? {
        print!("{probe}");
        return Ok(());
    }
    if files.is_empty() {
        let mut text = String::new();
        io::stdin().read_to_string(&mut text).map_err(|error| error.to_string())?;
        obey(&text, &mut output)?;
    }
    for name in files {
        let text = std::fs::read_to_string(&name).map_err(|error| format!("{name}: {error}"))?;
        obey(&text, &mut output).map_err(|error| format!("{name}: {error}"))?;
    }
    io::stdout().write_all(output.as_bytes()).map_err(|error| error.to_string())
}

fn main() -> ExitCode {
    match run() {
        Ok(()) => ExitCode::SUCCESS,
        Err(message) => {
            eprintln!("second-probe: {message}");
            ExitCode::FAILURE
        }
    }
}
