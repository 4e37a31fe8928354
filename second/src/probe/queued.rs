//! A merger as a caller hands it in: a table that is not good, a count or a queued part
//! past the sizes gives 2.

use std::collections::BTreeMap;

use super::sums::{self, queue_words, Source, SITE_QUEUE};
use crate::merger::{Log, Merger};
use crate::record::{parse_log, LogRecord, Save};
use crate::sizes::*;
use crate::table::Table;

#[derive(Clone, PartialEq, Eq, Debug)]
pub struct Queued {
    pub merger: Merger,
    /// Counts of queued parts, by site, where the queue is shorter. The house lacks
    /// some of these sites.
    counts: BTreeMap<u64, u64>,
    /// Words of a site's queue that are no parts of it.
    words: BTreeMap<u64, Vec<u64>>,
}

impl Queued {
    pub fn new(merger: Merger) -> Self {
        Queued { merger, counts: BTreeMap::new(), words: BTreeMap::new() }
    }

    /// Q3.5, and each queued part is one of its site by the table. No part is well made
    /// at a site that the house lacks, so none is counted there.
    pub fn is_within_sizes(&self) -> bool {
        let Merger { table, logs } = &self.merger;
        let well_made = |(site, log): (u64, &Log)| {
            log.queue.iter().all(|part| part.is_part_of(site, table))
                && (log.queue.is_empty() || !self.words.contains_key(&site))
        };
        table.is_possible() && self.counts.is_empty() && (1..).zip(logs).all(well_made)
    }

    /// The checksum of all eight sources and their queues.
    pub fn sum(&self) -> u64 {
        let sources: Vec<Source> = (1..=SITES as u64).map(|site| self.source(site)).collect();
        sums::merger(&self.merger.table, &sources)
    }

    fn source(&self, site: u64) -> Source {
        let log = &self.merger.logs[site as usize - 1];
        let words = self.words.get(&site).cloned();
        let words = words.unwrap_or_else(|| queue_words(site, log.queue.iter()));
        Source { state: log.state, last: log.last, queued: log.queue.len() as u64, words }
    }

    /// 0 the number of sites, 30 + T the first key of site T.
    pub fn poke(&mut self, field: u64, value: u64) -> Result<(), String> {
        let table = &mut self.merger.table;
        match field {
            0 => table.sites = value,
            31..=38 => table.firsts[field as usize - 31] = value,
            _ => {}
        }
        let has = |site: &u64| table.is_possible() && is_site(*site, table.sites);
        let behind = |site: &u64| self.merger.logs[*site as usize - 1].queue.is_empty();
        if self.words.keys().any(|site| has(site) && behind(site)) {
            return Err("words behind the queued parts".to_string());
        }
        let poked: Vec<u64> = self.words.keys().copied().collect();
        poked.into_iter().for_each(|site| self.read_queue(site));
        Ok(())
    }

    pub fn poke_source(&mut self, site: u64, field: u64, value: u64) -> Result<(), String> {
        if !is_site(site, SITES as u64) {
            return Err("a source that no house has".to_string());
        }
        let log = &mut self.merger.logs[site as usize - 1];
        let queued = log.queue.len();
        match field {
            0 => log.state = value,
            1 => log.last.number = value,
            2 => log.last.coordinator = value,
            3 if value < queued as u64 => return Err("a shorter queue".to_string()),
            3 if value == queued as u64 => drop(self.counts.remove(&site)),
            3 => drop(self.counts.insert(site, value)),
            _ => {}
        }
        Ok(())
    }

    pub fn poke_queue(&mut self, site: u64, place: u64, value: u64) -> Result<(), String> {
        if !is_site(site, SITES as u64) || place >= SITE_QUEUE as u64 {
            return Err("a word of no queue".to_string());
        }
        let Merger { table, logs } = &self.merger;
        let queue = &logs[site as usize - 1].queue;
        if is_site(site, table.sites) && place as usize >= queue.len() * PART_BUFFER {
            return Err("a word behind the queued parts".to_string());
        }
        let words = self.words.entry(site).or_insert_with(|| queue_words(site, queue.iter()));
        words[place as usize] = value;
        self.read_queue(site);
        Ok(())
    }

    /// The words of a queue become its parts again, if they are parts of this site.
    fn read_queue(&mut self, site: u64) {
        let Merger { table, logs } = &mut self.merger;
        let queue = &mut logs[site as usize - 1].queue;
        if !table.is_possible() || queue.is_empty() {
            return;
        }
        let places = self.words[&site].chunks_exact(PART_BUFFER).take(queue.len());
        let parts = places.map(|words| part_of(words, site, table)).collect::<Option<Vec<Save>>>();
        if let Some(parts) = parts {
            *queue = parts.into();
            self.words.remove(&site);
        }
    }
}

/// The part in a place, if it is one of this site.
fn part_of(place: &[u64], site: u64, table: &Table) -> Option<Save> {
    let length = usize::try_from(place[0]).ok()?;
    match parse_log(place.get(..length)?, table) {
        Ok(LogRecord::Part { site: own, save }) if own == site => Some(save),
        _ => None,
    }
}
