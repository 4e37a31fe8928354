//! `second-scripts SEED [LINES]` prints a script;
//! `second-scripts --stats N [FIRST]` runs N seeds and counts what they reach;
//! `second-scripts --into FOLDER N [FIRST]` writes N scripts, one file each.

use std::io::{self, Write};
use std::path::Path;
use std::process::ExitCode;

use second::scripts::generate;
use second::tally::Tally;

const USAGE: &str = "usage: second-scripts SEED [LINES]
       second-scripts --stats N [FIRST_SEED]
       second-scripts --into FOLDER N [FIRST_SEED]";

fn number(word: Option<&String>) -> Result<Option<u64>, String> {
    word.map(|word| word.parse().map_err(|_| format!("{word} is no number\n{USAGE}"))).transpose()
}

fn stats(count: u64, first: u64) {
    let mut tally = Tally::default();
    for seed in first..first + count {
        tally.add(&generate(seed, None).tally);
    }
    print!("{tally}");
}

fn write_into(folder: &Path, count: u64, first: u64) -> Result<(), String> {
    for seed in first..first + count {
        let file = folder.join(format!("{seed}.house"));
        std::fs::write(&file, generate(seed, None).text)
            .map_err(|error| format!("{}: {error}", file.display()))?;
    }
    Ok(())
}

fn run(arguments: &[String]) -> Result<(), String> {
    match arguments.first().map(String::as_str) {
        Some("--stats") => {
            let count = number(arguments.get(1))?.ok_or(USAGE)?;
            stats(count, number(arguments.get(2))?.unwrap_or(1));
        }
        Some("--into") => {
            let folder = arguments.get(1).ok_or(USAGE)?;
            let count = number(arguments.get(2))?.ok_or(USAGE)?;
            write_into(Path::new(folder), count, number(arguments.get(3))?.unwrap_or(1))?;
        }
        _ => {
            let seed = number(arguments.first())?.ok_or(USAGE)?;
            let script = generate(seed, number(arguments.get(1))?).text;
            io::stdout().write_all(script.as_bytes()).map_err(|error| error.to_string())?;
        }
    }
    Ok(())
}

fn main() -> ExitCode {
    let arguments: Vec<String> = std::env::args().skip(1).collect();
    match run(&arguments) {
        Ok(()) => ExitCode::SUCCESS,
        Err(message) => {
            eprintln!("{message}");
            ExitCode::FAILURE
        }
    }
}
