//! The head of a picture: its title, what its marks mean, and the numbers in it.

use std::collections::BTreeSet;

use super::course::{Course, MOST_EVENTS};
use super::sheet::{boxed, colour};
use super::svg::*;
use super::wording::{cause, name, Look};
use crate::sizes::*;

const LEFT: i64 = 20;
const TOP: i64 = 32;
const LINE: i64 = 24;
/// Half the width of a sample, and where its text begins.
const SAMPLE_HALF: i64 = 62;
const TEXT_X: i64 = LEFT + 2 * SAMPLE_HALF + 14;

const MESSAGES: [&str; 2] = [
    "A site joins a save (JOIN, JOINED), closes its part and lists the others at work (PREPARE, CONC),",
    "takes all lists together and votes (CERT, VOTE), and learns the decision (COMMIT or ABORT).",
];
const RECORDS: [&str; 2] = [
    "An install makes the writes visible at its site and puts a part in the site's log. The merger takes the",
    "logs and emits a save once no log can hold an earlier one. Copies replay what it emits.",
];

enum Sample {
    /// A look, a transaction and a text.
    Step(Look, u64, String),
    Arrow(&'static str),
    Untaken,
    Refused(u64),
}

type Row = (Sample, String);

/// Draws the head; answers its width and where it ends.
pub fn draw(svg: &mut Svg, title: &str, course: &Course) -> (i64, i64) {
    let mut width = LEFT + text_width(title, 18) + LEFT;
    svg.text((LEFT, TOP), Type::new(18, INK, "start").bold(), "", title);
    let mut y = TOP + 22;
    for text in remarks(course) {
        svg.text((LEFT, y), Type::new(TEXT, INK, "start"), "", &text);
        width = width.max(LEFT + text_width(&text, TEXT) + LEFT);
        y += LINE - 6;
    }
    y += 8;
    for (sample, text) in rows(course) {
        draw_sample(svg, &sample, y);
        svg.text((TEXT_X, y + 4), Type::new(TEXT, INK, "start"), "", &text);
        width = width.max(TEXT_X + text_width(&text, TEXT) + LEFT);
        y += LINE;
    }
    (width, y)
}

fn remarks(course: &Course) -> Vec<String> {
    let mut remarks = vec!["Time goes down, one row for each line of the script.".to_string()];
    if course.lines > MOST_EVENTS {
        remarks.push(format!("Drawn are the first {MOST_EVENTS} of {} lines.", course.lines));
    }
    if course.arrows.iter().any(|arrow| arrow.is_message) {
        remarks.extend(MESSAGES.map(str::to_string));
    }
    if course.arrows.iter().any(|arrow| !arrow.is_message) {
        remarks.extend(RECORDS.map(str::to_string));
    }
    remarks
}

fn rows(course: &Course) -> Vec<Row> {
    let looks: BTreeSet<Look> = course.steps.iter().map(|step| step.did.look).collect();
    let mut rows: Vec<Row> = Vec::new();
    if let Some(first) = course.steps.iter().find_map(|step| step.did.transaction) {
        rows.extend(steps(first, &looks));
    }
    if course.arrows.iter().any(|arrow| arrow.is_message) {
        let text = "a message, from the line that wrote it to the line that took it";
        rows.push((Sample::Arrow("JOIN"), text.to_string()));
    }
    if course.arrows.iter().any(|arrow| !arrow.is_message) {
        let text = "a record: a part or a state of a site's log, or a merged save";
        rows.push((Sample::Arrow("part"), text.to_string()));
    }
    if !course.untaken.is_empty() {
        let whole = course.lines <= MOST_EVENTS;
        let until = if whole { "never taken" } else { "not taken in the lines drawn" };
        rows.push((Sample::Untaken, format!("written here, and {until}")));
    }
    for look in looks {
        if let Look::Refused(number) = look {
            let text = format!("refused {number}, nothing changes: {}", cause(number));
            rows.push((Sample::Refused(number), text));
        }
    }
    rows
}

/// What the boxes mean, by the example of the first transaction.
fn steps(transaction: u64, looks: &BTreeSet<Look>) -> Vec<Row> {
    let (own, serial) = (coordinator_of(transaction), serial_of(transaction));
    let number = format!("{} is transaction {transaction}", name(transaction));
    let mut rows = vec![(
        Sample::Step(Look::Begin, transaction, "begins".to_string()),
        format!("{number}: coordinator {own}, serial {serial}; each has its colour"),
    )];
    for &look in looks {
        let (sample, text) = match look {
            Look::Commit => ("commit 1", "decided: it commits, with this number".to_string()),
            Look::Kept => (
                "installs (1, 1)",
                "installed, emitted or replayed under its pair: commit number, coordinator"
                    .to_string(),
            ),
            Look::Abort(reason) => {
                let sample = Sample::Step(look, transaction, format!("abort {reason}"));
                rows.push((sample, format!("decided: it aborts; {reason}: {}", cause(reason))));
                continue;
            }
            _ => continue,
        };
        rows.push((Sample::Step(look, transaction, sample.to_string()), text));
    }
    rows
}

fn draw_sample(svg: &mut Svg, sample: &Sample, y: i64) {
    let middle = LEFT + SAMPLE_HALF;
    let right = LEFT + 2 * SAMPLE_HALF;
    match sample {
        Sample::Step(look, transaction, text) => {
            let place = (middle, y, SAMPLE_HALF);
            boxed(svg, place, *look, colour(Some(0)), &name(*transaction), text);
        }
        Sample::Arrow(label) => {
            svg.path(&format!("M{LEFT} {} H{}", y + 4, right - 4), colour(Some(0)), false);
            svg.head((right, y + 4), true, colour(Some(0)));
            let kind = Type::new(SMALL, colour(Some(0)), "end");
            svg.text((right - 9, y), kind, "", label);
        }
        Sample::Untaken => {
            svg.path(&format!("M{LEFT} {y} H{right}"), colour(Some(0)), true);
        }
        Sample::Refused(number) => {
            let text = format!("\u{d7} {number}");
            svg.text((middle, y + 4), Type::new(SMALL, GREY, "middle"), "", &text);
        }
    }
}
