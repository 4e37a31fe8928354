//! Outcomes of a probe's calls in words (Q12.8).

use std::fmt::Write;

use crate::answer::{Decision, Refusal};
use crate::world::Answer;

/// An outcome in words, without the end of its line.
pub fn tell(output: &mut String, event: u64, answer: &Result<Answer, Refusal>) {
    // Writing to a String cannot fail.
    let _ = match answer {
        Err(refusal) => write!(output, "{event} refused {}", refusal.number()),
        Ok(answer) => write!(output, "{event} ok{}", results(answer)),
    };
}

fn results(answer: &Answer) -> String {
    match *answer {
        Answer::Done => String::new(),
        Answer::Begun(number) => format!(" {number}"),
        Answer::Value(value) => format!(" {value}"),
        Answer::Sent(sent) => match sent.decision {
            None => String::new(),
            Some(Decision::Commit(number)) => format!(" {number}"),
            Some(Decision::Abort(reason)) => format!(" abort {reason}"),
        },
        Answer::Installed(done) => format!(" {} {}", done.pair.number, done.pair.coordinator),
        Answer::Reported(report) => format!(" {}", report.state),
        Answer::Emitted(emitted) => {
            let pair = emitted.pair;
            format!(" {} {} {}", pair.number, pair.coordinator, emitted.transaction)
        }
        Answer::Replayed(pair) => format!(" {} {}", pair.number, pair.coordinator),
        Answer::CopyValue(value, pair) => {
            format!(" {value} {} {}", pair.number, pair.coordinator)
        }
        Answer::Found(found) => format!(" {} {}", found.value, found.looked_at),
    }
}
