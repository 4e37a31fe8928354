//! A transaction that site 1 of three coordinates and site 2 takes part in, at each
//! stage, as calls and messages lead there.

use second::site::Site;
use second::sizes::*;

use super::{buffer, message, site, take, HOUSE};

pub const T: u64 = (1 << 32) + 1;

/// Channel number, kind, clock and argument of a message of the coordinator.
pub fn to_two(channel: u64, kind: u64, clock: u64, argument: u64) -> Vec<u64> {
    let mut words = message(kind, 1, 2, T);
    (words[4], words[6], words[7]) = (channel, clock, argument);
    words
}

/// Channel number, kind and argument of a reply, whose clock is 0.
pub fn to_one(channel: u64, kind: u64, argument: u64) -> Vec<u64> {
    let mut words = message(kind, 2, 1, T);
    (words[4], words[7]) = (channel, argument);
    words
}

fn after(site: &Site, words: &[u64]) -> Site {
    let mut after = site.clone();
    take(&mut after, words);
    after
}

/// Site 2: active, prepared, voted yes, decided, voted no. The no is for an install
/// after the snapshot that is forgotten when PREPARE comes.
pub fn participants() -> [Site; 5] {
    let active = after(&site(3, 2), &to_two(1, 1, 0, 0));
    let prepared = after(&active, &to_two(2, 3, 0, 3));
    let voted_yes = after(&prepared, &to_two(3, 5, 0, 0));
    let decided = after(&voted_yes, &to_two(4, 7, 1, 0));
    let mut forgetful = active.clone();
    for _ in 0..=HISTORY {
        let other = forgetful.begin(HOUSE).unwrap();
        forgetful.commit(other, &mut buffer()).unwrap();
        forgetful.install(&mut buffer()).unwrap();
    }
    let voted_no = after(&forgetful, &to_two(2, 3, 0, 3));
    [active, prepared, voted_yes, decided, voted_no]
}

/// Site 1: begun, JOINED outstanding, JOINED of 12, JOINED of 0, prepared, voted yes,
/// decided.
pub fn coordinators() -> [Site; 7] {
    let mut begun = site(3, 1);
    begun.begin(HOUSE).unwrap();
    let mut joining = begun.clone();
    joining.enlist(T, 2, &mut buffer()).unwrap();
    let full = after(&joining, &to_one(1, 2, 12));
    let joined = after(&joining, &to_one(1, 2, 0));
    let mut prepared = joined.clone();
    prepared.commit(T, &mut buffer()).unwrap();
    let voted_yes = after(&prepared, &to_one(2, 4, 0));
    let decided = after(&voted_yes, &to_one(3, 6, 0));
    [begun, joining, full, joined, prepared, voted_yes, decided]
}

/// The same site, from which no channel takes one message more.
pub fn spent(site: &Site) -> Site {
    Site { sent: [u64::MAX; SITES], ..site.clone() }
}
