//! The values that a part or an installed one wrote, as a caller hands them in: the first
//! written first. Whether they fit is asked of a site (Q12.7).

use crate::site::Footprint;
use crate::sizes::SET_KEYS;

const STARTS: u64 = 300;
const LENGTHS: u64 = 400;

/// Sets a start or a length by its field; behind the last value there is none to set.
pub fn poke(footprint: &mut Footprint, field: u64, word: u64) {
    let place = |first: u64| field.checked_sub(first).filter(|&place| place < SET_KEYS as u64);
    if let Some(place) = place(STARTS) {
        if let Some((_, value)) = footprint.values.get_mut(place as usize) {
            value.start = word;
        }
    } else if let Some(place) = place(LENGTHS) {
        if let Some((_, value)) = footprint.values.get_mut(place as usize) {
            value.length = word;
        }
    }
}

pub fn fits(footprint: &Footprint) -> bool {
    footprint.values.iter().all(|&(_, value)| value.fits())
}
