//! Random triples of a page length and two numbers, as lines of a probe (Q8.1 to Q8.9). Each
//! triple is tried as an offset and as a way back; now and then a run is tried too.

use std::fmt::Write;

use crate::bookmarks::page;
use crate::random::Random;

/// One triple in so many comes with a run, of fewer offsets than this.
const TRIPLES_TO_A_RUN: u64 = 40;
const OFFSETS: u64 = 12;

/// The lines of so many triples of a seed, from the first on, which counts from 0.
pub fn probe(seed: u64, count: u64, first: u64) -> String {
    // A triple is the same in whatever piece it stands, and seeds share none.
    let base = Random::new(seed).word();
    let mut text = format!("# Seed {seed}, {count} triples from {first}.\n");
    for place in first..first.saturating_add(count) {
        triple(&mut Random::new(base.wrapping_add(place)), &mut text);
    }
    text
}

fn triple(random: &mut Random, text: &mut String) {
    let length = random.page_length();
    let rest = random.rest_for(length);
    let number = match random.chance(50) {
        true => random.offset_for(length),
        false => random.page_for(length, rest),
    };
    // Writing to a String cannot fail.
    let _ = writeln!(text, "page {length} {number}\noffset {length} {number} {rest}");
    if let Ok(place) = page(length, number) {
        let _ = writeln!(text, "offset {length} {} {}", place.page, place.rest);
    }
    if random.below(TRIPLES_TO_A_RUN) == 0 {
        run(random, length, text);
    }
}

/// Sets how many words are in hand and some of them; the others stay from runs before.
fn run(random: &mut Random, length: u64, text: &mut String) {
    let offsets = random.below(OFFSETS);
    let _ = writeln!(text, "cut {offsets}");
    for place in 0..offsets {
        if random.chance(60) {
            let _ = writeln!(text, "word {place} {}", random.offset_for(length));
        }
    }
    let _ = writeln!(text, "run {length} {}", random.room_for(offsets));
}
