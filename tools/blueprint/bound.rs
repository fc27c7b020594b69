//! When a region is given up at once: by the network, or as its open tasks weigh more than the processors can take.

use crate::search::Search;
use crate::state::State;
use crate::table::{PROCESSORS, members};

/// With fewer open tasks the search itself is quicker than the bound.
const LEAST_OPEN: u32 = 4;
/// What a plain bound that refutes earns, and the most that it can have; one that does not loses 1.
const EARNED: i32 = 24;
const MOST_CREDIT: i32 = 400;
/// Without credit only one of so many plain bounds is worked out.
const SELDOM: u32 = 32;

impl Search<'_> {
    pub fn is_hopeless(&mut self, state: &State) -> bool {
        if state.open.count_ones() < LEAST_OPEN || !self.is_due() {
            return false;
        }
        let hopeless = if self.listing {
            self.is_hopeless_listing(state)
        } else {
            let candidates = self.candidates(state);
            self.is_overfull(state, &candidates)
        };
        if !self.notes.weighted {
            self.note(hopeless);
        }
        hopeless
    }

    /// A plain bound that has long refuted nothing is tried seldom.
    fn is_due(&mut self) -> bool {
        if self.notes.weighted || self.notes.credit >= 0 {
            return true;
        }
        self.notes.skipped = self.notes.skipped.wrapping_add(1);
        self.notes.skipped.is_multiple_of(SELDOM)
    }

    fn note(&mut self, hopeless: bool) {
        if hopeless {
            self.notes.credit = (self.notes.credit + EARNED).min(MOST_CREDIT);
        } else if self.notes.credit >= 0 {
            self.notes.credit -= 1;
        }
    }

    /// First as if nothing were listed, as only a region that is hopeless at all is worth conflicts; then with the
    /// listed conflicts alone, which lists those that are missing.
    fn is_hopeless_listing(&mut self, state: &State) -> bool {
        self.listing = false;
        let candidates = std::array::from_fn(|processor| self.candidates_among(state, processor, state.open));
        let hopeless = self.is_overfull(state, &candidates);
        self.listing = true;
        hopeless && {
            let candidates = std::array::from_fn(|processor| self.candidates_listing(state, processor));
            self.is_overfull(state, &candidates)
        }
    }

    /// The open tasks that a processor can take, by the listed conflicts; what is missing is listed.
    fn candidates_listing(&mut self, state: &State, processor: usize) -> u32 {
        let mut candidates = 0;
        for task in members(state.open) {
            if self.table.allows(state, task, processor) && !self.is_closed(state.on[processor] | 1 << task) {
                candidates |= 1 << task;
            }
        }
        candidates
    }

    fn is_overfull(&mut self, state: &State, candidates: &[u32; PROCESSORS]) -> bool {
        if self.is_network_overfull(state, candidates) {
            return true;
        }
        if self.notes.weighted {
            return self.is_refuted_by_multipliers(state, candidates);
        }
        let guide = self.guide;
        guide.rows.iter().any(|row| self.fill(state, candidates, row, true).gap < 0)
    }

    /// Whether the messages that must cross it are too many: those whose tasks cannot meet on a processor any more.
    fn is_network_overfull(&self, state: &State, candidates: &[u32; PROCESSORS]) -> bool {
        let mut traffic = state.traffic;
        for message in &self.table.messages {
            let both = 1 << message.sender | 1 << message.receiver;
            let excluded = self.table.excluded[message.sender] >> message.receiver & 1 == 1;
            let can_meet = |p: usize| (state.on[p] | candidates[p]) & both == both;
            if state.open & both != 0 && (excluded || !(0..PROCESSORS).any(can_meet)) {
                traffic += message.amount;
            }
        }
        !self.table.messages.is_empty() && traffic > self.table.capacity
    }
}
