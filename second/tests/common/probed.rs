//! A house that obeys the lines of a probe.

use second::probe::line::parse;
use second::probe::Probe;

pub struct House {
    probe: Probe,
    /// Of the last line: its outcome, and what stands behind the `;`.
    pub outcome: String,
    pub left: String,
}

impl House {
    pub fn of(sites: u64) -> Self {
        House { probe: Probe::new(sites), outcome: String::new(), left: String::new() }
    }

    pub fn after(sites: u64, lines: &[&str]) -> Self {
        let mut house = House::of(sites);
        for line in lines {
            house.say(line);
        }
        house
    }

    /// Obeys a line and gives its outcome, without its number; none for a remark.
    pub fn say(&mut self, line: &str) -> &str {
        let mut output = String::new();
        if let Some(line) = parse(line).unwrap() {
            self.probe.obey(1, &line, &mut output).unwrap();
        }
        let (outcome, left) = output.split_once(';').unwrap_or((&output, ""));
        self.outcome = outcome.trim().strip_prefix("1 ").unwrap_or_default().to_string();
        self.left = left.trim().to_string();
        &self.outcome
    }
}
