//! A site as a caller hands it in: any field may have been poked, and a state past
//! the sizes gives 2. What the site itself cannot hold is noted beside it.

use std::collections::{BTreeMap, BTreeSet};

use super::claimed::Claimed;
use super::listed::Listed;
use super::sums;
use super::valued;
use crate::answer::Refusal;
use crate::site::{Footprint, Installed, Part, Site, Stage};
use crate::sizes::*;

/// Fields of a part and of an installed one. A key adds its place to 100 (read)
/// or 200 (written), a value written to 300 (start) or 400 (length).
mod field {
    pub const TRANSACTION: u64 = 0;
    pub const SNAPSHOT: u64 = 1;
    pub const STAGE: u64 = 2;
    pub const MASK: u64 = 3;
    pub const NUMBER: u64 = 4;
    pub const HEARD: u64 = 5;
    pub const REASON: u64 = 6;
    pub const LISTED: u64 = 7;
    pub const READ: u64 = 8;
    pub const WROTE: u64 = 9;
    pub const DESK: u64 = 10;
}

const LAST_STAGE: u64 = 5;

/// Where a number past the sizes stands: a part's or an installed one's field, or
/// a free place, which no line reaches.
#[derive(Clone, Copy, PartialEq, Eq, PartialOrd, Ord, Debug)]
enum Place {
    Live(u64, u64),
    Past(u64, u64),
    Free,
}

#[derive(Clone, PartialEq, Eq, Debug)]
pub struct Handed {
    pub site: Site,
    past_sizes: BTreeSet<Place>,
    /// Desks and counts that were poked, by transaction.
    claims: BTreeMap<u64, Claimed>,
    /// Gathered lists that were poked, by transaction.
    lists: BTreeMap<u64, Listed>,
    /// Every slot of the history: install n stands in slot (n − 1) % 32. The site
    /// remembers those that its count of installs reaches.
    slots: Vec<Installed>,
}

impl Handed {
    pub fn new(site: Site) -> Self {
        let unused = Installed {
            install: 0,
            transaction: 0,
            participants: 0,
            footprint: Footprint::default(),
        };
        Handed {
            site,
            past_sizes: BTreeSet::new(),
            claims: BTreeMap::new(),
            lists: BTreeMap::new(),
            slots: vec![unused; HISTORY],
        }
    }

    /// A site with its history in the slots.
    pub fn of(site: Site) -> Self {
        let mut handed = Handed::new(site);
        for past in &handed.site.history {
            handed.slots[slot_of(past.install)] = past.clone();
        }
        handed
    }

    /// S19, Q3.5, Q10.6, Q12.7: table, counts, keys, masks, desks and values written. What
    /// goes out in a CONC is a transaction of the house: the numbers of parts and of
    /// remembered ones.
    pub fn is_within_sizes(&self) -> bool {
        let site = &self.site;
        if !self.has_house() {
            return false;
        }
        let mut keys = self.footprints().flat_map(|one| one.reads.keys().chain(one.writes.keys()));
        let numbers = (site.live.iter().map(|part| part.transaction))
            .chain(site.history.iter().map(|past| past.transaction));
        site.serial <= LAST_SERIAL
            && self.past_sizes.is_empty()
            && site.live.iter().all(|part| self.has_possible_masks(part))
            && site.live.iter().all(|part| self.claimed(part.transaction).is_possible(part))
            && self.slots.iter().all(|past| is_mask(past.participants, site.table.sites))
            && numbers.into_iter().all(|number| is_transaction(number, site.table.sites))
            && keys.all(|key| site.table.site_of(key) == Some(site.own))
            && self.footprints().all(valued::fits)
    }

    /// Of parts, and of every slot.
    fn footprints(&self) -> impl Iterator<Item = &Footprint> {
        let live = self.site.live.iter().map(|part| &part.footprint);
        live.chain(self.slots.iter().map(|past| &past.footprint))
    }

    fn has_house(&self) -> bool {
        self.site.table.is_possible() && is_site(self.site.own, self.site.table.sites)
    }

    /// Replies come from other sites, and each list has at most 47 entries, the
    /// own one too.
    fn has_possible_masks(&self, part: &Part) -> bool {
        let (sites, own) = (self.site.table.sites, self.site.own);
        let lists = u64::from(part.heard.count_ones()) + 1;
        is_mask(part.participants, sites)
            && is_mask(part.heard, sites)
            && part.heard & site_bit(own) == 0
            && self.list_of(part).count <= LIST_ENTRIES as u64 * lists
    }

    fn claimed(&self, transaction: u64) -> Claimed {
        self.claims.get(&transaction).copied().unwrap_or_default()
    }

    /// Whether every entry that a gathered list counts is possible.
    pub fn has_possible_lists(&self) -> bool {
        let mut parts = self.site.live.iter();
        parts.all(|part| self.list_of(part).is_possible(self.site.table.sites))
    }

    fn list_of(&self, part: &Part) -> Listed {
        let poked = self.lists.get(&part.transaction).cloned();
        poked.unwrap_or_else(|| Listed::of(&part.gathered))
    }

    /// After an accepted call: lists and slots are as the call left the site.
    pub fn follow(&mut self, before: &Site) {
        let site = &self.site;
        self.lists.retain(|&transaction, _| site.find(transaction).is_some());
        for part in &site.live {
            let Some(list) = self.lists.get_mut(&part.transaction) else { continue };
            let earlier = before.find(part.transaction).map(|place| &before.live[place].gathered);
            if earlier != Some(&part.gathered) {
                list.fill(&part.gathered);
            }
        }
        for past in &site.history {
            self.slots[slot_of(past.install)] = past.clone();
        }
    }

    pub fn poke(&mut self, field: u64, value: u64) {
        let site = &mut self.site;
        match field {
            0 => site.table.sites = value,
            1 => site.own = value,
            2 => site.clock = value,
            3 => site.serial = value,
            4 => {
                site.installs = value;
                self.remember();
            }
            11..=18 => site.sent[field as usize - 11] = value,
            21..=28 => site.taken[field as usize - 21] = value,
            31..=38 => site.table.firsts[field as usize - 31] = value,
            _ => {}
        }
    }

    /// The last installs, up to 32, as their slots say.
    fn remember(&mut self) {
        let installs = self.site.installs;
        let last = (0..installs.min(HISTORY as u64)).rev();
        self.site.history = last
            .map(|back| {
                let past = &mut self.slots[slot_of(installs - back)];
                past.install = installs - back;
                past.clone()
            })
            .collect();
    }

    /// `Ok(Err(..))` where the part is not there.
    pub fn poke_live(
        &mut self,
        transaction: u64,
        what: u64,
        value: u64,
    ) -> Result<Result<(), Refusal>, String> {
        let Some(place) = self.site.find(transaction) else { return Ok(Err(Refusal::NotHeld)) };
        let own = self.site.own;
        if matches!(what, field::WROTE | field::DESK) {
            return self.claim(place, what, value);
        }
        let past = match what {
            field::STAGE => value > LAST_STAGE,
            _ => self.is_past(&self.site.live[place].footprint, what, value)?,
        };
        self.note(Place::Live(transaction, what), past);
        if past {
            return Ok(Ok(()));
        }
        let part = &mut self.site.live[place];
        let (_, number, _, reason) = sums::course(part, own);
        match what {
            field::TRANSACTION => return self.number_anew(place, value),
            field::SNAPSHOT => part.snapshot = value,
            field::STAGE if value == 0 => return self.free(place),
            field::STAGE => part.stage = stage_of(value, number, reason),
            field::MASK => part.participants = value,
            field::NUMBER => match &mut part.stage {
                Stage::Open { mark: number } | Stage::Decided { number } => *number = value,
                _ => {}
            },
            field::HEARD => part.heard = value,
            field::REASON => {
                if let Stage::Active { full } = &mut part.stage {
                    *full = value != 0;
                }
            }
            field::LISTED => self.poke_list(place, |list| list.count = value),
            _ => valued::poke(&mut part.footprint, what, value),
        }
        Ok(Ok(()))
    }

    /// A count of written keys that the desk allows is the part's own: which keys
    /// another one would add or leave out, the rules do not say.
    fn claim(
        &mut self,
        place: usize,
        what: u64,
        value: u64,
    ) -> Result<Result<(), Refusal>, String> {
        let part = &mut self.site.live[place];
        let claimed = self.claims.entry(part.transaction).or_default();
        match what {
            field::DESK => claimed.poke_desk(part, value),
            _ => claimed.poke_wrote(part, value),
        }
        if claimed.is_open(part) {
            return Err("a count of other keys than were written".to_string());
        }
        Ok(Ok(()))
    }

    /// Two parts of one number: which of them a call finds is left free.
    fn number_anew(&mut self, place: usize, value: u64) -> Result<Result<(), Refusal>, String> {
        let before = self.site.live[place].transaction;
        if self.site.find(value).is_some_and(|other| other != place) {
            return Err("two parts of one transaction".to_string());
        }
        self.site.live[place].transaction = value;
        if let Some(list) = self.lists.remove(&before) {
            self.lists.insert(value, list);
        }
        if let Some(claimed) = self.claims.remove(&before) {
            self.claims.insert(value, claimed);
        }
        let noted = std::mem::take(&mut self.past_sizes).into_iter();
        self.past_sizes = noted
            .map(|noted| match noted {
                Place::Live(transaction, what) if transaction == before => Place::Live(value, what),
                other => other,
            })
            .collect();
        Ok(Ok(()))
    }

    /// A free place's number and list are not looked at, its counts, keys, masks and
    /// desk are.
    fn free(&mut self, place: usize) -> Result<Result<(), Refusal>, String> {
        let part = &self.site.live[place];
        let possible = self.has_possible_masks(part) && valued::fits(&part.footprint);
        if !self.has_house() || !possible {
            return Err("a free place past the sizes".to_string());
        }
        let part = self.site.live.remove(place);
        let number = part.transaction;
        let claimed = self.claims.remove(&number).unwrap_or_default();
        let of_part = |noted: &Place| matches!(noted, Place::Live(of, _) if *of == number);
        if self.past_sizes.iter().any(of_part) || !claimed.is_possible(&part) {
            self.past_sizes.insert(Place::Free);
        }
        self.past_sizes.retain(|noted| !of_part(noted));
        self.lists.remove(&number);
        Ok(Ok(()))
    }

    /// Word `word` of the gathered list of a part.
    pub fn plant(&mut self, transaction: u64, word: u64, value: u64) -> Result<(), Refusal> {
        let place = self.site.find(transaction).ok_or(Refusal::NotHeld)?;
        self.poke_list(place, |list| list.poke(word, value));
        Ok(())
    }

    fn poke_list(&mut self, place: usize, change: impl FnOnce(&mut Listed)) {
        let part = &mut self.site.live[place];
        let list = self.lists.entry(part.transaction).or_insert_with(|| Listed::of(&part.gathered));
        change(list);
        if let Some(entries) = list.entries() {
            part.gathered = entries;
        }
    }

    /// The slot of install `count`.
    pub fn poke_past(
        &mut self,
        count: u64,
        what: u64,
        value: u64,
    ) -> Result<Result<(), Refusal>, String> {
        if count == 0 {
            return Ok(Err(Refusal::Impossible));
        }
        let slot = slot_of(count);
        let past = self.is_past(&self.slots[slot].footprint, what, value)?;
        self.note(Place::Past(slot as u64, what), past);
        match what {
            field::TRANSACTION => self.slots[slot].transaction = value,
            field::MASK => self.slots[slot].participants = value,
            _ => valued::poke(&mut self.slots[slot].footprint, what, value),
        }
        self.remember();
        Ok(Ok(()))
    }

    /// A count above 16, or below a count a key of another site. A key of this site is
    /// one that was there: which key another one would replace is left free.
    fn is_past(&self, footprint: &Footprint, what: u64, value: u64) -> Result<bool, String> {
        let (keys, place) = match what {
            field::READ | field::WROTE => return Ok(value > SET_KEYS as u64),
            100..=115 => (&footprint.reads, what - 100),
            200..=215 => (&footprint.writes, what - 200),
            _ => return Ok(false),
        };
        if place >= keys.len() as u64 {
            return Ok(false);
        }
        let own = self.has_house() && self.site.table.site_of(value) == Some(self.site.own);
        if own && !keys.contains(value) {
            return Err("another key of the site".to_string());
        }
        Ok(!own)
    }

    fn note(&mut self, place: Place, past: bool) {
        if past {
            self.past_sizes.insert(place);
        } else {
            self.past_sizes.remove(&place);
        }
    }
}

fn slot_of(install: u64) -> usize {
    ((install - 1) % HISTORY as u64) as usize
}

/// A stage by its number, with what the part kept beside it.
fn stage_of(stage: u64, number: u64, reason: u64) -> Stage {
    match stage {
        1 => Stage::Active { full: reason != 0 },
        2 => Stage::Prepared,
        3 => Stage::Open { mark: number },
        4 => Stage::Decided { number },
        _ => Stage::VotedNo,
    }
}
