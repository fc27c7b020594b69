//! What is known of sets, and the list of conflicts that a search fills.

use crate::learnt::{COVERED_BITS, HINT_BITS};
use crate::search::Search;
use crate::state::State;
use crate::table::members;

/// Minimal late sets, in as many places as the answer has for them.
pub struct Nogoods {
    pub conflicts: Vec<u32>,
    pub places: usize,
}

/// The place of a set in a table of 2^bits entries.
fn place_of(set: u32, bits: u32) -> usize {
    (set.wrapping_mul(2_654_435_761) >> (32 - bits)) as usize
}

impl Nogoods {
    pub fn new(places: usize) -> Nogoods {
        Nogoods { conflicts: Vec::with_capacity(places), places }
    }

    pub fn is_full(&self) -> bool {
        self.conflicts.len() == self.places
    }
}

impl Search<'_> {
    pub fn is_late(&mut self, set: u32) -> bool {
        let place = place_of(set, self.steps.known_bits());
        let entry = self.learnt.known[place];
        if entry >> 1 == set {
            return entry & 1 == 1;
        }
        self.counts.lateness_tests += 1;
        let late = self.table.is_late(set);
        self.learnt.known[place] = set << 1 | u32::from(late);
        late
    }

    /// Whether a set holds a listed conflict.
    fn is_covered(&mut self, set: u32) -> bool {
        if self.steps.covered_sets && self.nogoods.is_full() {
            self.is_covered_for_good(set)
        } else {
            self.is_covered_now(set)
        }
    }

    /// By a full list: it no longer changes, so that what is said of a set stays true.
    fn is_covered_for_good(&mut self, set: u32) -> bool {
        let place = place_of(set, COVERED_BITS);
        let entry = self.learnt.covered[place];
        if entry >> 1 == set && set != 0 {
            return entry & 1 == 1;
        }
        let covered = self.is_covered_now(set);
        self.learnt.covered[place] = set << 1 | u32::from(covered);
        covered
    }

    fn is_covered_now(&mut self, set: u32) -> bool {
        let hint = &mut self.learnt.hints[place_of(set, HINT_BITS)];
        let within = |conflict: &u32| conflict & !set == 0;
        if self.nogoods.conflicts.get(*hint as usize).is_some_and(within) {
            return true;
        }
        let found = self.nogoods.conflicts.iter().position(within);
        if let Some(number) = found {
            *hint = number as u32;
        }
        found.is_some()
    }

    /// Whether a set may not stand on a processor. While conflicts are listed, a late set counts only with a listed
    /// conflict in it: one is listed if there is a place, and with a full list the search has to go on.
    pub fn is_closed(&mut self, set: u32) -> bool {
        if !self.is_late(set) {
            return false;
        }
        if !self.listing || self.is_covered(set) {
            return true;
        }
        let has_place = !self.nogoods.is_full();
        if has_place {
            self.nogoods.conflicts.push(self.table.minimal_within(set));
        }
        has_place
    }

    pub fn lists_in_full(&self) -> bool {
        self.listing && self.nogoods.is_full()
    }

    /// Whether the search would pass over a set; nothing is listed for it.
    fn is_passed_over(&mut self, set: u32) -> bool {
        if self.lists_in_full() { self.is_covered(set) } else { self.is_late(set) }
    }

    /// Those of the given open tasks that a processor can take.
    pub fn candidates_among(&mut self, state: &State, processor: usize, tasks: u32) -> u32 {
        let on = state.on[processor];
        let mut candidates = 0;
        for task in members(tasks) {
            if self.table.allows(state, task, processor) && !self.is_passed_over(on | 1 << task) {
                candidates |= 1 << task;
            }
        }
        candidates
    }
}
