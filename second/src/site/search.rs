//! The search of a site's history (C9, Q5.1 to Q5.5, Q12.1).

use super::Site;
use crate::answer::Refusal;
use crate::value::Value;

/// Outcome of a search: the value, and how many entries of the history it looked at.
#[derive(Clone, Copy, PartialEq, Eq, Debug)]
pub struct Found {
    pub value: Value,
    pub looked_at: u64,
}

impl Site {
    /// Q5.4: any snapshot has an answer, also one beyond the installs, and one after
    /// which an install is forgotten.
    pub fn search(&self, snapshot: u64, key: u64) -> Result<Found, Refusal> {
        self.require_own_key(key)?;
        Ok(self.version(snapshot, key))
    }

    /// Q5.3: the newest version of a key within a snapshot, else the base value. The
    /// walk goes from the newest visible entry backwards and ends at the first that
    /// has the key.
    pub(super) fn version(&self, snapshot: u64, key: u64) -> Found {
        let mut looked_at = 0;
        for entry in self.history.iter().rev().skip_while(|entry| entry.install > snapshot) {
            looked_at += 1;
            if let Some(value) = entry.footprint.value(key) {
                return Found { value, looked_at };
            }
        }
        Found { value: self.base[key as usize], looked_at }
    }
}
