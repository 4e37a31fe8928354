//! Where things stand in a picture. A row has one step, so a horizontal line meets
//! no other step. Vertical lines run on tracks between the lanes, beside the labels.

use std::collections::BTreeSet;

use super::course::{Arrow, Course, Place, Step};
use super::svg::{text_width, SMALL, TEXT};
use super::wording::{name, Look};

const ROW: i64 = 30;
const REFUSED_ROW: i64 = 18;
/// Steps between two rows that repeat the lanes' names.
const STEPS_TO_A_HEAD: usize = 30;
const HEAD_ROW: i64 = 34;

const MARGIN: i64 = 20;
/// Room for the numbers of the lines.
const NUMBERS: i64 = 30;
/// Letters of a line that stand beside its row.
pub const LINE_LETTERS: usize = 30;
/// Room for a label before the tip of an arrow, and where there is none.
const LABEL_ZONE: i64 = 70;
const BARE_ZONE: i64 = 16;
const TRACK: i64 = 9;
const LEAST_STEP: i64 = 104;

/// A lane by its middle and half the width of its steps.
#[derive(Clone, Copy, Debug)]
pub struct Lane {
    pub place: Place,
    pub x: i64,
    pub half: i64,
}

#[derive(Clone, Debug)]
pub struct Plan {
    pub lanes: Vec<Lane>,
    /// The middle of each step's row.
    pub rows: Vec<i64>,
    /// The track of each arrow.
    pub tracks: Vec<i64>,
    /// Rows that repeat the lanes' names.
    pub heads: Vec<i64>,
    pub number_x: i64,
    pub line_x: i64,
    /// Where marks without a lane stand.
    pub gutter_x: i64,
    /// Where lines end that nobody took.
    pub edge_x: i64,
    pub bottom: i64,
    pub width: i64,
}

impl Plan {
    pub fn lane(&self, place: Option<Place>) -> Option<usize> {
        self.lanes.iter().position(|lane| Some(lane.place) == place)
    }
}

/// Plans the rows below `top`.
pub fn plan(course: &Course, top: i64) -> Plan {
    let (rows, heads, bottom) = rows(&course.steps, top);
    let longest = course.steps.iter().map(|step| step.line.len().min(LINE_LETTERS)).max();
    let number_x = MARGIN + NUMBERS;
    let line_x = number_x + 10;
    let gutter_x = line_x + mono_width(longest.unwrap_or(0)) + 12;
    let mut plan = Plan {
        lanes: lanes(course),
        rows,
        tracks: Vec::new(),
        heads,
        number_x,
        line_x,
        gutter_x,
        edge_x: 0,
        bottom,
        width: 0,
    };
    plan.spread(course);
    let untaken = course.untaken.iter().map(|it| text_width(&it.text, SMALL)).max();
    plan.width = plan.edge_x + untaken.map_or(0, |width| width + 16) + MARGIN;
    plan
}

fn mono_width(letters: usize) -> i64 {
    (letters as i64 * SMALL * 61 + 99) / 100
}

/// The middles of the rows, the rows of heads, and the bottom.
fn rows(steps: &[Step], top: i64) -> (Vec<i64>, Vec<i64>, i64) {
    let (mut rows, mut heads, mut y) = (Vec::new(), Vec::new(), top);
    for (index, step) in steps.iter().enumerate() {
        let rest = steps.len() - index;
        if index > 0 && index % STEPS_TO_A_HEAD == 0 && rest > STEPS_TO_A_HEAD / 2 {
            heads.push(y + HEAD_ROW / 2);
            y += HEAD_ROW;
        }
        let height = row_height(step);
        rows.push(y + height / 2);
        y += height;
    }
    (rows, heads, y + ROW / 2)
}

pub fn row_height(step: &Step) -> i64 {
    if matches!(step.did.look, Look::Refused(_)) {
        REFUSED_ROW
    } else {
        ROW
    }
}

/// Lanes of the house in order, not yet placed.
fn lanes(course: &Course) -> Vec<Lane> {
    let copies: BTreeSet<Place> = course
        .steps
        .iter()
        .filter_map(|step| step.place)
        .filter(|place| matches!(place, Place::Copy(_)))
        .collect();
    let merger = (course.sites > 0).then_some(Place::Merger);
    (1..=course.sites)
        .map(Place::Site)
        .chain(merger)
        .chain(copies)
        .map(|place| Lane { place, x: 0, half: half_width(course, place) })
        .collect()
}

fn half_width(course: &Course, place: Place) -> i64 {
    let steps = course.steps.iter().filter(|step| step.place == Some(place));
    let widest = steps.map(step_width).max().unwrap_or(0);
    widest.max(LEAST_STEP) / 2
}

fn step_width(step: &Step) -> i64 {
    let named = step.did.transaction.map_or(0, |it| text_width(&name(it), TEXT) + 6);
    named + text_width(&step.did.text, TEXT) + 16
}

impl Plan {
    /// Places lanes and tracks from left to right.
    fn spread(&mut self, course: &Course) {
        let ends: Vec<(usize, usize)> =
            course.arrows.iter().map(|arrow| self.ends(arrow, course)).collect();
        self.tracks = vec![0; ends.len()];
        let mut x = self.gutter_x + 44;
        for lane in 0..self.lanes.len() {
            self.lanes[lane].x = x + self.lanes[lane].half;
            x += 2 * self.lanes[lane].half;
            x = self.place_tracks(course, &ends, lane, x);
        }
        self.edge_x = x;
    }

    /// The lanes at which an arrow starts and ends.
    fn ends(&self, arrow: &Arrow, course: &Course) -> (usize, usize) {
        let lane = |step: usize| self.lane(course.steps[step].place).unwrap_or(0);
        (lane(arrow.from), lane(arrow.to))
    }

    /// Tracks between a lane and the next, beside the lane to which the arrow goes.
    /// Arrows whose times do not meet share a track. Answers where the next lane begins.
    fn place_tracks(
        &mut self,
        course: &Course,
        ends: &[(usize, usize)],
        lane: usize,
        x: i64,
    ) -> i64 {
        let leftward = ends.iter().any(|&(from, to)| to == lane && from > lane);
        let rightward = ends.iter().any(|&(from, to)| to == lane + 1 && from <= lane);
        let first = x + if leftward { LABEL_ZONE } else { BARE_ZONE };
        let mut arrows: Vec<usize> = (0..ends.len())
            .filter(|&arrow| {
                let (from, to) = ends[arrow];
                (to == lane && from > lane) || (to == lane + 1 && from <= lane)
            })
            .collect();
        arrows.sort_by_key(|&arrow| course.arrows[arrow].from);
        let mut busy_until: Vec<usize> = Vec::new();
        for arrow in arrows {
            let Arrow { from, to, .. } = course.arrows[arrow];
            let free = busy_until.iter().position(|&until| until <= from);
            let track = free.unwrap_or(busy_until.len());
            busy_until.resize(busy_until.len().max(track + 1), 0);
            busy_until[track] = to;
            self.tracks[arrow] = first + track as i64 * TRACK;
        }
        let tracks = (busy_until.len() as i64 - 1).max(0) * TRACK;
        first + tracks + if rightward { LABEL_ZONE } else { BARE_ZONE }
    }
}
