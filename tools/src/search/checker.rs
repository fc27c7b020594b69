//! A check of any search answer.

use super::{Truth, head, places, shortest_answer};
use crate::schedule::members;
use std::collections::HashMap;

/// What can be wrong with an answer.
#[derive(Clone, Copy, Debug, PartialEq, Eq)]
pub enum Fault {
    Count,
    Head,
    Layout,
    BytesBehind,
    NotMinimal,
    Repeated,
    NotHeld,
    Mark,
    CutWithPlaces,
}

/// What an answer says after its head.
#[derive(Debug, PartialEq, Eq)]
pub struct Listing {
    pub conflicts: Vec<u32>,
    pub complete: bool,
}

/// Checks answers for one table.
pub struct Checker<'a> {
    pub truth: &'a dyn Truth,
    /// Answers for other buffers list the same sets again: what was found out is kept. Whether a set is a
    /// minimal conflict, and whether a list is complete.
    minimal: HashMap<u32, bool>,
    complete: HashMap<Vec<u32>, bool>,
}

impl Checker<'_> {
    pub fn new(truth: &dyn Truth) -> Checker<'_> {
        Checker { truth, minimal: HashMap::new(), complete: HashMap::new() }
    }

    /// The buffer before and after the search, and the count that it returned.
    pub fn check(&mut self, before: &[u8], after: &[u8], count: usize) -> Result<Listing, Fault> {
        let listing = self.parse(after, count)?;
        let conflicts = &listing.conflicts;
        ensure(after[count..] == before[count..], Fault::BytesBehind)?;
        for (number, &conflict) in conflicts.iter().enumerate() {
            ensure(self.is_minimal_conflict(conflict), Fault::NotMinimal)?;
            ensure(!conflicts[..number].contains(&conflict), Fault::Repeated)?;
            ensure(self.truth.is_held(conflict), Fault::NotHeld)?;
        }
        ensure(listing.complete == self.is_complete(conflicts), Fault::Mark)?;
        let is_full = conflicts.len() == places(self.truth.table(), after.len());
        ensure(listing.complete || is_full, Fault::CutWithPlaces)?;
        Ok(listing)
    }

    fn parse(&self, answer: &[u8], count: usize) -> Result<Listing, Fault> {
        let shortest = shortest_answer(self.truth.table());
        let fits = (shortest..=answer.len()).contains(&count);
        ensure(fits && (count - shortest).is_multiple_of(6), Fault::Count)?;
        let (start, rest) = answer[..count].split_at(shortest - 3);
        ensure(start == head(self.truth.table(), self.truth.first()), Fault::Head)?;
        parse_list(rest)
    }

    fn is_complete(&mut self, conflicts: &[u32]) -> bool {
        if let Some(&known) = self.complete.get(conflicts) {
            return known;
        }
        let complete = self.truth.uncovered(conflicts).is_none();
        self.complete.insert(conflicts.to_vec(), complete);
        complete
    }

    fn is_minimal_conflict(&mut self, set: u32) -> bool {
        let truth = self.truth;
        *self.minimal.entry(set).or_insert_with(|| {
            set >> truth.table().tasks.len() == 0
                && truth.is_late(set)
                && members(set).all(|task| !truth.is_late(set & !(1 << task)))
        })
    }
}

/// What stands behind an answer's head.
pub fn parse_list(list: &[u8]) -> Result<Listing, Fault> {
    ensure(list.len() % 6 == 3, Fault::Count)?;
    let (records, end) = list.split_at(list.len() - 3);
    ensure(end.starts_with(b"EN") && end[2] <= 1, Fault::Layout)?;
    ensure(records.chunks(6).all(|record| record.starts_with(b"NG")), Fault::Layout)?;
    let mask = |record: &[u8]| u32::from_le_bytes([record[2], record[3], record[4], record[5]]);
    Ok(Listing { conflicts: records.chunks(6).map(mask).collect(), complete: end[2] == 1 })
}

fn ensure(holds: bool, fault: Fault) -> Result<(), Fault> {
    if holds { Ok(()) } else { Err(fault) }
}
