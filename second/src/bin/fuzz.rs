//! `second-fuzz N [FIRST_SEED]` runs N random lists of calls and counts what they
//! reach; `second-fuzz --trace SEED` lists the calls of one.

use std::process::ExitCode;

use second::fuzz::run;
use second::tally::Tally;

const CALLS: u64 = 1_200;

fn main() -> ExitCode {
    let arguments: Vec<String> = std::env::args().skip(1).collect();
    let number = |place: usize| arguments.get(place).and_then(|word| word.parse::<u64>().ok());
    if arguments.first().is_some_and(|word| word == "--trace") {
        if let Some(seed) = number(1) {
            run(seed, CALLS, true);
            return ExitCode::SUCCESS;
        }
    }
    let Some(count) = number(0) else {
        eprintln!("usage: second-fuzz N [FIRST_SEED]\n       second-fuzz --trace SEED");
        return ExitCode::FAILURE;
    };
    let first = number(1).unwrap_or(1);
    let mut tally = Tally::default();
    for seed in first..first + count {
        tally.add(&run(seed, CALLS, false));
    }
    print!("{tally}");
    println!("{count} lists, no violation");
    ExitCode::SUCCESS
}
