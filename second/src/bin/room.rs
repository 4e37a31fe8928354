//! `second-room [FILE]`: obeys the script in the file, or on standard input.
//! `second-room --random SEED N FIRST` prints N lines of a random script.

use std::fs::File;
use std::io::{self, BufRead, BufReader, BufWriter, Write};
use std::process::ExitCode;

use second::room::{random, Room};

const USAGE: &str = "usage: second-room [FILE]
       second-room --random SEED N FIRST";

fn obey(input: &mut dyn BufRead, output: &mut dyn Write) -> io::Result<()> {
    let mut room = Room::default();
    let (mut line, mut text) = (Vec::new(), String::new());
    while input.read_until(b'\n', &mut line)? != 0 {
        if line.last() == Some(&b'\n') {
            line.pop();
        }
        room.line(&line, &mut text);
        output.write_all(text.as_bytes())?;
        line.clear();
        text.clear();
    }
    Ok(())
}

fn run(arguments: &[String], output: &mut dyn Write) -> Result<(), String> {
    let numbers: Vec<u64> = arguments.iter().filter_map(|word| word.parse().ok()).collect();
    match (arguments, &numbers[..]) {
        ([option, _, _, _], &[seed, lines, first]) if option == "--random" => {
            let script = random::script(seed, lines, first);
            output.write_all(&script).map_err(|error| error.to_string())
        }
        ([], _) => obey(&mut io::stdin().lock(), output).map_err(|error| error.to_string()),
        ([name], _) if !name.starts_with("--") => File::open(name)
            .and_then(|file| obey(&mut BufReader::new(file), output))
            .map_err(|error| format!("{name}: {error}")),
        _ => Err(USAGE.to_string()),
    }
}

fn main() -> ExitCode {
    let arguments: Vec<String> = std::env::args().skip(1).collect();
    let mut output = BufWriter::with_capacity(1 << 16, io::stdout().lock());
    let done = run(&arguments, &mut output)
        .and_then(|()| output.flush().map_err(|error| format!("standard output: {error}")));
    match done {
        Ok(()) => ExitCode::SUCCESS,
        Err(message) => {
            eprintln!("second-room: {message}");
            ExitCode::FAILURE
        }
    }
}
