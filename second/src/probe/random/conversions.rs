//! Random conversions of bookmarks (Q8.1 to Q8.9): places and ways back, and runs over the
//! words in hand, which are those of some message or record or are set before.

use super::Maker;

/// Words that a line sets before a run.
const SET: u64 = 4;

impl Maker {
    pub(super) fn convert(&mut self) {
        let length = self.random.page_length();
        match self.random.below(3) {
            0 => {
                let offset = self.random.offset_for(length);
                self.say(format!("page {length} {offset}"));
            }
            1 => {
                let rest = self.random.rest_for(length);
                let page = self.random.page_for(length, rest);
                self.say(format!("offset {length} {page} {rest}"));
            }
            _ => self.run(length),
        }
    }

    /// Mostly of a few words in hand, at times of all that are there.
    fn run(&mut self, length: u64) {
        if self.random.chance(70) {
            let held = self.random.below(3 * SET);
            self.say(format!("cut {held}"));
            for place in 0..held.min(SET) {
                let offset = self.random.offset_for(length);
                self.say(format!("word {place} {offset}"));
            }
        }
        let held = self.probe.hand.words().len() as u64;
        let room = self.random.room_for(held);
        self.say(format!("run {length} {room}"));
    }
}
