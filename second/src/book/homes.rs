//! Where each key lives (Q3.1, Q3.2), as a list of all 2,048 keys that is made from the
//! ranges and asks no table.

use super::{claim, Checked};
use crate::answer::Refusal;
use crate::sizes::*;
use crate::world::{Answer, Call};

/// Position of a part record's count of writes.
const COUNT: usize = 7;

/// The site of each key.
#[derive(Clone, Debug)]
pub(super) struct Homes(Vec<u64>);

impl Homes {
    /// Each site claims all keys from its first one on; the later sites claim theirs
    /// from it.
    pub fn of(firsts: &[u64]) -> Self {
        let mut homes = vec![0; KEYS as usize];
        for (site, &first) in (1..).zip(firsts) {
            homes[first as usize..].fill(site);
        }
        Homes(homes)
    }

    pub fn at(&self, key: u64) -> u64 {
        self.0[key as usize]
    }

    /// None for a key above 2,047.
    pub fn of_key(&self, key: u64) -> Option<u64> {
        self.0.get(usize::try_from(key).ok()?).copied()
    }

    /// Q3.6: a call takes a key of its site, gives 3 for another site's and 2 for one
    /// above 2,047. What is installed lives at its site.
    pub fn check(&self, call: &Call, answer: &Result<Answer, Refusal>, written: &[u64]) -> Checked {
        let (site, key) = match *call {
            Call::Read { site, key, .. }
            | Call::Write { site, key, .. }
            | Call::Search { site, key, .. } => (site, key),
            Call::Install { site } => return self.check_part(site, written),
            _ => return Ok(()),
        };
        let home = self.of_key(key);
        let fits = match answer {
            Err(Refusal::Impossible) => home.is_none() || !self.has(site),
            Err(Refusal::OtherSite) => home.is_some_and(|home| home != site),
            _ => home == Some(site),
        };
        claim(fits, || format!("key {key} is of site {home:?}, and {call:?} gave {answer:?}"))
    }

    fn has(&self, site: u64) -> bool {
        self.0.contains(&site)
    }

    fn check_part(&self, site: u64, written: &[u64]) -> Checked {
        let Some((header, writes)) = written.split_at_checked(RECORD_HEADER) else { return Ok(()) };
        let keys = writes.chunks_exact(WRITE_WORDS).map(|write| write[0]);
        let due = keys.len() as u64 == header[COUNT];
        let own = due && keys.into_iter().all(|key| self.at(key) == site);
        claim(own, || format!("site {site} installed {writes:?}"))
    }
}
