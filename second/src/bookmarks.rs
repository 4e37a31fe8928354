//! Pages with the bytes left over (Q8.1 to Q8.9): an offset as a page and a rest, the way
//! back, and runs of offsets. These calls have no house, no key and no state.

use crate::answer::{require, Refusal};

/// Words of a place in a run: the page, then the rest.
pub const PLACE_WORDS: usize = 2;

/// A page, counted from 0, and the exact bytes into it.
#[derive(Clone, Copy, PartialEq, Eq, Debug)]
pub struct Place {
    pub page: u64,
    pub rest: u64,
}

impl Place {
    pub fn new(page: u64, rest: u64) -> Self {
        Place { page, rest }
    }
}

fn require_pages(length: u64) -> Result<(), Refusal> {
    require(length != 0, Refusal::NoPageLength)
}

/// The page that an offset is in, and how many bytes into it.
pub fn page(length: u64, offset: u64) -> Result<Place, Refusal> {
    require_pages(length)?;
    Ok(Place::new(offset / length, offset % length))
}

/// The way back: the bytes of all pages before this one, and the rest. The sum is taken
/// where it cannot wrap; 2^64 − 1 is an offset and 2^64 is none.
pub fn offset(length: u64, place: Place) -> Result<u64, Refusal> {
    require_pages(length)?;
    require(place.rest < length, Refusal::Impossible)?;
    let before = u128::from(place.page) * u128::from(length);
    u64::try_from(before + u128::from(place.rest)).map_err(|_| Refusal::Impossible)
}

/// Converts each offset of a run; the outgoing buffer has twice the words of the run,
/// neither fewer nor more, and is left as it was where the run is refused.
pub fn pages(length: u64, offsets: &[u64], out: &mut [u64]) -> Result<(), Refusal> {
    require(out.len() == PLACE_WORDS * offsets.len(), Refusal::Impossible)?;
    require_pages(length)?;
    for (words, &offset) in out.chunks_exact_mut(PLACE_WORDS).zip(offsets) {
        let place = page(length, offset)?;
        words.copy_from_slice(&[place.page, place.rest]);
    }
    Ok(())
}
