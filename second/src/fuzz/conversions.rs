//! Conversions of bookmarks (Q8.1 to Q8.9): what each gives is fixed. The checks go the
//! other way than the calls: they multiply where a call divides, and divide where it
//! multiplies.

use super::Fuzz;
use crate::answer::Refusal;
use crate::bookmarks::{offset, page, pages, Place};

const MOST_OFFSETS: u64 = 20;

impl Fuzz {
    /// An offset there and back, and any page and rest back and there.
    pub(super) fn conversion(&mut self) -> Result<(), String> {
        let length = self.random.page_length();
        let at = self.random.offset_for(length);
        let there = page(length, at);
        self.counted("page", there.err());
        if !is_place_of(length, at, there) {
            return Err(format!("page {length} {at} gave {there:?}"));
        }
        if there.is_ok_and(|place| offset(length, place) != Ok(at)) {
            return Err(format!("the way back from page {length} {at} is another"));
        }
        let rest = self.random.rest_for(length);
        let place = Place::new(self.random.page_for(length, rest), rest);
        let back = offset(length, place);
        self.counted("offset", back.err());
        let due = refusal_of_way_back(length, place);
        if back.err() != due || back.is_ok_and(|at| page(length, at) != Ok(place)) {
            return Err(format!("offset {length} of {place:?} gave {back:?}, {due:?} was due"));
        }
        Ok(())
    }

    /// Each offset of a run is converted as it is alone, or the buffer is left.
    pub(super) fn run_of_conversions(&mut self) -> Result<(), String> {
        let (length, count) = (self.random.page_length(), self.random.below(MOST_OFFSETS));
        let offsets: Vec<u64> = (0..count).map(|_| self.random.offset_for(length)).collect();
        let room = self.random.room_for(count).min(4 * MOST_OFFSETS) as usize;
        let blank = vec![self.random.word(); room];
        let mut out = blank.clone();
        let refused = pages(length, &offsets, &mut out).err();
        self.counted("run", refused);
        let due = match (room as u64 == 2 * count, length) {
            (false, _) => Some(Refusal::Impossible),
            (true, 0) => Some(Refusal::NoPageLength),
            (true, _) => None,
        };
        let converted = || {
            offsets.iter().enumerate().all(|(one, &at)| {
                is_place_of(length, at, Ok(Place::new(out[2 * one], out[2 * one + 1])))
            })
        };
        let left = if due.is_some() { out == blank } else { converted() };
        match refused == due && left {
            true => Ok(()),
            false => Err(format!("run {length} of {offsets:?} in {room} gave {refused:?}")),
        }
    }

    pub(super) fn counted(&mut self, what: &'static str, refused: Option<Refusal>) {
        let outcome = refused.map(|refusal| format!("refused {:2}", refusal.number()));
        self.tally.count(what, outcome.unwrap_or_else(|| "ok".to_string()));
    }
}

/// The pages before the place and its rest, which is within a page, make the offset.
fn is_place_of(length: u64, at: u64, given: Result<Place, Refusal>) -> bool {
    match given {
        Ok(place) => {
            let before = u128::from(place.page) * u128::from(length);
            place.rest < length && before + u128::from(place.rest) == u128::from(at)
        }
        Err(refusal) => length == 0 && refusal == Refusal::NoPageLength,
    }
}

fn refusal_of_way_back(length: u64, place: Place) -> Option<Refusal> {
    if length == 0 {
        return Some(Refusal::NoPageLength);
    }
    let passes = place.rest < length && place.page <= (u64::MAX - place.rest) / length;
    (!passes).then_some(Refusal::Impossible)
}
