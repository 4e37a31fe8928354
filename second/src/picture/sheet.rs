//! Draws a course as planned: lanes, arrows, steps, and what nobody took.

use super::course::{Arrow, Course, Place, Untaken, MOST_EVENTS};
use super::legend;
use super::plan::{plan, row_height, Lane, Plan, LINE_LETTERS};
use super::svg::*;
use super::wording::{name, Look};

/// Half the height of a step.
const HALF: i64 = 10;
/// Arrows come in above the middle of a step and leave below it.
const ASIDE: i64 = 5;
const HEAD_HEIGHT: i64 = 38;
const CORNER: i64 = 5;

/// Colours of transactions, in the order of their first steps.
const COLOURS: [&str; 8] =
    ["#1f6fb2", "#c8710a", "#2b8a3e", "#7b4fb5", "#0b8a8a", "#8a5a2b", "#b5388a", "#66750f"];

/// What is drawn and how far the drawing is.
struct Sheet<'a> {
    course: &'a Course,
    plan: Plan,
    transactions: Vec<u64>,
    svg: Svg,
}

pub fn draw(title: &str, course: &Course) -> String {
    let mut svg = Svg::default();
    let (legend_width, legend_bottom) = legend::draw(&mut svg, title, course);
    let heads = legend_bottom + 16;
    let plan = plan(course, heads + HEAD_HEIGHT + 10);
    let (width, bottom) = (plan.width.max(legend_width), plan.bottom);
    let mut sheet = Sheet { course, plan, transactions: transactions(course), svg };
    sheet.bands(width);
    sheet.lanes(heads);
    course.untaken.iter().for_each(|untaken| sheet.untaken(untaken));
    (0..course.arrows.len()).for_each(|arrow| sheet.arrow(arrow));
    (0..course.steps.len()).for_each(|step| sheet.step(step));
    let height = sheet.foot(bottom);
    sheet.svg.finish(title, width, height)
}

fn transactions(course: &Course) -> Vec<u64> {
    let mut transactions = Vec::new();
    for transaction in course.steps.iter().filter_map(|step| step.did.transaction) {
        if !transactions.contains(&transaction) {
            transactions.push(transaction);
        }
    }
    transactions
}

/// Fill and line of a step of a transaction's colour.
fn paint(look: Look, colour: &'static str) -> Paint {
    let (fill, opacity, line, width) = match look {
        Look::Plain | Look::Refused(_) => ("#ffffff", 100, colour, 1),
        Look::Begin => (colour, 18, colour, 1),
        Look::Commit => (colour, 100, colour, 1),
        Look::Abort(_) => (RED, 100, RED, 1),
        Look::Kept => (colour, 18, colour, 3),
    };
    Paint { fill, opacity, line, width }
}

fn class(look: Look) -> &'static str {
    match look {
        Look::Plain => "step",
        Look::Begin => "begin",
        Look::Commit => "commit",
        Look::Abort(_) => "abort",
        Look::Kept => "kept",
        Look::Refused(_) => "refused",
    }
}

/// A step as a box with its text.
pub fn boxed(
    svg: &mut Svg,
    (x, y, half): (i64, i64, i64),
    look: Look,
    colour: &'static str,
    name: &str,
    text: &str,
) {
    let corner = (x - half, y - HALF);
    let size = (2 * half, 2 * HALF);
    // A ground under a pale fill, so that lines do not shine through.
    svg.rect(corner, size, Paint { fill: "#ffffff", opacity: 100, line: "none", width: 0 });
    svg.rect(corner, size, paint(look, colour));
    let bright = matches!(look, Look::Commit | Look::Abort(_));
    let kind = Type::new(TEXT, if bright { "#ffffff" } else { INK }, "middle");
    svg.text((x, y + 4), if bright { kind.bold() } else { kind }, name, text);
}

/// The colour of a transaction, or of a step without one.
pub fn colour(place: Option<usize>) -> &'static str {
    place.map_or("#5d6d7e", |place| COLOURS[place % COLOURS.len()])
}

impl Sheet<'_> {
    fn colour(&self, step: usize) -> &'static str {
        let transaction = self.course.steps[step].did.transaction;
        colour(self.transactions.iter().position(|&it| Some(it) == transaction))
    }

    /// A pale band behind every other row leads the eye from the line to its step.
    fn bands(&mut self, width: i64) {
        let paint = Paint { fill: "#f6f7f9", opacity: 100, line: "none", width: 0 };
        for step in (0..self.course.steps.len()).step_by(2) {
            let height = row_height(&self.course.steps[step]);
            let corner = (-CORNER, self.plan.rows[step] - height / 2);
            self.svg.rect(corner, (width + 2 * CORNER, height), paint);
        }
    }

    fn lanes(&mut self, heads: i64) {
        let between = self.plan.heads.clone();
        for lane in self.plan.lanes.clone() {
            let (name, role) = titles(lane.place, self.course);
            self.svg.open("lane", &name);
            let line = format!("M{} {} V{}", lane.x, heads, self.plan.bottom);
            self.svg.path(&line, PALE, false);
            self.lane_head(lane, heads, HEAD_HEIGHT);
            self.svg.text((lane.x, heads + 16), Type::new(13, INK, "middle").bold(), "", &name);
            self.svg.text((lane.x, heads + 31), Type::new(SMALL, GREY, "middle"), "", &role);
            for &y in &between {
                self.lane_head(lane, y - HALF, 2 * HALF);
                self.svg.text((lane.x, y + 4), Type::new(TEXT, INK, "middle").bold(), "", &name);
            }
            self.svg.close();
        }
    }

    fn lane_head(&mut self, lane: Lane, top: i64, height: i64) {
        let paint = Paint { fill: "#eef1f4", opacity: 100, line: PALE, width: 1 };
        self.svg.rect((lane.x - lane.half, top), (2 * lane.half, height), paint);
    }

    /// The side of a step at which lines to the right or left meet it.
    fn side(&self, step: usize, rightward: bool) -> i64 {
        let lane = self.plan.lane(self.course.steps[step].place);
        lane.map_or(self.plan.gutter_x, |lane| {
            let Lane { x, half, .. } = self.plan.lanes[lane];
            if rightward {
                x + half
            } else {
                x - half
            }
        })
    }

    fn arrow(&mut self, index: usize) {
        let Arrow { from, to, label, is_message } = self.course.arrows[index];
        let colour = self.colour(from);
        let track = self.plan.tracks[index];
        let rightward = self.side(from, true) < track;
        let start = (self.side(from, rightward), self.plan.rows[from] + ASIDE);
        let tip = (self.side(to, !rightward), self.plan.rows[to] - ASIDE);
        let title = format!("{label}, line {} to line {}", from + 1, to + 1);
        self.svg.open(if is_message { "message" } else { "record" }, &title);
        self.svg.path(&bent(start, track, tip), colour, false);
        self.svg.head(tip, track < tip.0, colour);
        let (x, anchor) = if track < tip.0 { (tip.0 - 9, "end") } else { (tip.0 + 9, "start") };
        self.svg.text((x, tip.1 - 4), Type::new(SMALL, colour, anchor), "", label);
        self.svg.close();
    }

    fn untaken(&mut self, untaken: &Untaken) {
        let colour = self.colour(untaken.step);
        let y = self.plan.rows[untaken.step] + ASIDE;
        let edge = self.plan.edge_x;
        self.svg.open("untaken", &untaken.text);
        self.svg.path(&format!("M{} {y} H{edge}", self.side(untaken.step, true)), colour, true);
        self.svg.head((edge + 8, y), true, colour);
        self.svg.text((edge + 14, y + 4), Type::new(SMALL, colour, "start"), "", &untaken.text);
        self.svg.close();
    }

    fn step(&mut self, index: usize) {
        let (step, y) = (&self.course.steps[index], self.plan.rows[index]);
        let refused = matches!(step.did.look, Look::Refused(_));
        let mut line: String = step.line.chars().take(LINE_LETTERS).collect();
        if step.line.len() > LINE_LETTERS {
            line.replace_range(LINE_LETTERS - 2.., "..");
        }
        let kind = if refused { GREY } else { INK };
        let number = (index + 1).to_string();
        self.svg.text((self.plan.number_x, y + 4), Type::new(SMALL, GREY, "end"), "", &number);
        self.svg.mono((self.plan.line_x, y + 4), kind, &line);
        self.svg.open(class(step.did.look), &step.line);
        let lane = self.plan.lane(step.place).map(|lane| self.plan.lanes[lane]);
        let x = lane.map_or(self.plan.gutter_x + 14, |lane| lane.x);
        if refused {
            // The cross stands on the lane, its number beside it.
            self.svg.text((x - 4, y + 4), Type::new(SMALL, GREY, "start"), "", &step.did.text);
        } else if let Some(lane) = lane {
            let name = step.did.transaction.map_or(String::new(), name);
            let colour = self.colour(index);
            boxed(&mut self.svg, (x, y, lane.half), step.did.look, colour, &name, &step.did.text);
        }
        self.svg.close();
    }

    /// Says what is not drawn; answers the height of the picture.
    fn foot(&mut self, bottom: i64) -> i64 {
        let lines = self.course.lines;
        if lines <= MOST_EVENTS {
            return bottom + 20;
        }
        let text = format!("The first {MOST_EVENTS} of {lines} lines are drawn.");
        self.svg.text((20, bottom + 24), Type::new(13, INK, "start").bold(), "", &text);
        bottom + 44
    }
}

/// A line to the track, along it and on to the tip, with round corners.
fn bent(start: (i64, i64), track: i64, tip: (i64, i64)) -> String {
    let (first, last) = ((track - start.0).signum(), (tip.0 - track).signum());
    format!(
        "M{} {} H{} Q{track} {} {track} {} V{} Q{track} {} {} {} H{}",
        start.0,
        start.1,
        track - first * CORNER,
        start.1,
        start.1 + CORNER,
        tip.1 - CORNER,
        tip.1,
        track + last * CORNER,
        tip.1,
        tip.0 - last * 4
    )
}

/// What stands at the head of a lane.
fn titles(place: Place, course: &Course) -> (String, String) {
    match place {
        Place::Site(site) => {
            let (first, last) = course.keys[site as usize - 1];
            (format!("site {site}"), format!("keys {first} to {last}"))
        }
        Place::Merger => ("merger".to_string(), "joins the logs".to_string()),
        Place::Copy(copy) => (format!("copy {copy}"), "replays saves".to_string()),
    }
}
