//! A script as a picture: lanes for sites, merger and copies, time downwards,
//! arrows for messages and records. Plain SVG.

mod course;
mod legend;
mod plan;
mod sheet;
mod svg;
mod wording;

pub use course::MOST_EVENTS;

/// Draws the script, under a name for the title.
pub fn draw(name: &str, script: &[u8], without_copies: bool) -> String {
    let course = course::follow(script, without_copies);
    sheet::draw(name, &course)
}
