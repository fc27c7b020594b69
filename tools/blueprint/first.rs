//! The search for the first placement: task by task, processors rising. What lies before it is refuted, and its
//! conflicts are listed.

use crate::conflicts::ListingAtOnce;
use crate::search::Search;
use crate::state::State;
use crate::table::TASKS;

pub struct Answer {
    pub found: bool,
    /// Some placement before the first one, or some placement if there is none, holds no listed conflict.
    pub cut: bool,
    pub placement: [u8; TASKS],
}

/// The number that stands for no processor.
const NOWHERE: u8 = 255;

impl Search<'_> {
    pub fn answer(&mut self) -> Answer {
        let start = self.table.nothing_placed();
        let mut answer = Answer { found: self.decide(&start), cut: false, placement: [NOWHERE; TASKS] };
        if answer.found {
            self.go_to_first(start, &mut answer);
        } else {
            self.try_listing_at_once(false);
            if self.listing_at_once != ListingAtOnce::Fits {
                answer.cut = self.replay(&start);
            }
        }
        if self.listing_at_once == ListingAtOnce::Fits {
            self.list_at_once(&answer);
        }
        answer
    }

    fn go_to_first(&mut self, mut state: State, answer: &mut Answer) {
        for task in 0..self.table.tasks {
            let processor = self.lowest_processor(&state, task, &mut answer.cut);
            answer.placement[task] = processor as u8;
            state = self.table.placed(&state, task, processor);
        }
    }

    /// The lowest processor of the task with which a placement is left. There is one: the witness stands in the
    /// region.
    fn lowest_processor(&mut self, state: &State, task: usize, cut: &mut bool) -> usize {
        for processor in 0..self.table.processors {
            if !self.table.allows(state, task, processor) {
                continue;
            }
            let next = self.table.placed(state, task, processor);
            let is_new = |search: &mut Self| {
                !search.is_late(next.on[processor]) && !search.table.has_twin(state, processor)
            };
            if self.witness[processor] >> task & 1 == 1 || (is_new(self) && self.decide(&next)) {
                return processor;
            }
            self.try_listing_at_once(*cut);
            if !*cut && self.listing_at_once != ListingAtOnce::Fits {
                *cut = self.is_uncovered(state, &next, processor);
            }
        }
        unreachable!("a region with a witness")
    }

    /// Lists the conflicts of a refuted region. True if there are too few places for them.
    fn is_uncovered(&mut self, state: &State, refuted: &State, processor: usize) -> bool {
        self.listing = true;
        let is_closed = self.is_closed(refuted.on[processor]);
        self.listing = false;
        !is_closed && !self.table.has_twin(state, processor) && self.replay(refuted)
    }
}
