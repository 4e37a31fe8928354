//! `second-house [--without-copies] [--trace] [FILE..]`: obeys the script on standard
//! input, or each file as a house of its own; `--trace` also shows what each line took
//! or wrote. `second-house [--without-copies] --picture FILE` draws a script as SVG.

use std::fs::File;
use std::io::{self, BufRead, BufReader, BufWriter, Write};
use std::path::Path;
use std::process::ExitCode;

use second::house::House;
use second::picture;
use second::trace::{self, Told};

struct Request {
    without_copies: bool,
    trace: bool,
    picture: bool,
    files: Vec<String>,
}

impl Request {
    fn read() -> Request {
        let mut files: Vec<String> = std::env::args().skip(1).collect();
        let mut flag = |name: &str| {
            let count = files.len();
            files.retain(|argument| argument != name);
            files.len() < count
        };
        let without_copies = flag("--without-copies");
        let (trace, picture) = (flag("--trace"), flag("--picture"));
        Request { without_copies, trace, picture, files }
    }

    /// What obeys one line and appends its output.
    fn house(&self) -> Box<dyn FnMut(&[u8], &mut String)> {
        if self.trace {
            let mut house = House::new(Told::default());
            house.without_copies = self.without_copies;
            return Box::new(move |line, text| trace::line(&mut house, line, text));
        }
        let mut house = House::new(());
        house.without_copies = self.without_copies;
        Box::new(move |line, text| {
            // The outcome stands in the text.
            let _ = house.line(line, text);
        })
    }

    fn obey(&self, input: &mut dyn BufRead, output: &mut dyn Write) -> io::Result<()> {
        let mut house = self.house();
        let (mut line, mut text) = (Vec::new(), String::new());
        while input.read_until(b'\n', &mut line)? != 0 {
            if line.last() == Some(&b'\n') {
                line.pop();
            }
            house(&line, &mut text);
            output.write_all(text.as_bytes())?;
            line.clear();
            text.clear();
        }
        Ok(())
    }

    fn draw(&self) -> Result<String, String> {
        let ([file], false) = (self.files.as_slice(), self.trace) else {
            return Err("--picture wants one file, and no --trace".to_string());
        };
        let script = std::fs::read(file).map_err(|error| format!("{file}: {error}"))?;
        let name = Path::new(file).file_name().unwrap_or_default().to_string_lossy();
        Ok(picture::draw(&name, &script, self.without_copies))
    }
}

fn run() -> Result<(), String> {
    let request = Request::read();
    let mut output = BufWriter::with_capacity(1 << 16, io::stdout().lock());
    let written = |error: io::Error| format!("standard output: {error}");
    if request.picture {
        output.write_all(request.draw()?.as_bytes()).map_err(written)?;
    } else if request.files.is_empty() {
        request
            .obey(&mut io::stdin().lock(), &mut output)
            .map_err(|error| format!("standard input: {error}"))?;
    } else {
        for name in &request.files {
            File::open(name)
                .and_then(|file| request.obey(&mut BufReader::new(file), &mut output))
                .map_err(|error| format!("{name}: {error}"))?;
        }
    }
    output.flush().map_err(written)
}

fn main() -> ExitCode {
    match run() {
        Ok(()) => ExitCode::SUCCESS,
        Err(message) => {
            eprintln!("second-house: {message}");
            ExitCode::FAILURE
        }
    }
}
