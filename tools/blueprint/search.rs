//! The search below a partial placement, and the decision whether a region has a placement.

use crate::conflicts::ListingAtOnce;
use crate::guide::Guide;
use crate::learnt::Learnt;
use crate::multipliers::Rows;
use crate::nogoods::Nogoods;
use crate::state::State;
use crate::steps::Steps;
use crate::table::{PROCESSORS, TASKS, Table, members};

/// What guides the search on its way. A replay takes the same choices from the same notes.
#[derive(Clone, Copy)]
pub struct Notes {
    failures: [u64; TASKS],
    random: u32,
    pub credit: i32,
    pub skipped: u32,
    /// Whether the bound takes adaptive weights instead of those by load and memory.
    pub weighted: bool,
}

#[derive(Default)]
pub struct Counts {
    pub nodes: u64,
    pub lateness_tests: u64,
    pub packings: u64,
    pub packing_calls: u64,
    pub network_calls: u64,
}

pub struct Search<'a> {
    pub table: &'a Table,
    pub guide: &'a Guide,
    pub steps: Steps,
    pub counts: Counts,
    pub learnt: &'a mut Learnt,
    pub nogoods: Nogoods,
    /// Whether conflicts are listed, so that a late set counts only with a listed conflict in it.
    pub listing: bool,
    pub listing_at_once: ListingAtOnce,
    pub notes: Notes,
    pub rows: Rows,
    /// How many multipliers there have been.
    pub versions: u32,
    /// What the last run began with.
    before_run: (Notes, Rows),
    /// The number of nodes at which a run gives up.
    fuel: Option<u64>,
    /// How many nodes the last decision took.
    pub decision_nodes: u64,
    /// The last placement that was found.
    pub witness: [u32; PROCESSORS],
}

#[derive(PartialEq)]
enum Outcome {
    Found,
    Refuted,
    GaveUp,
}

/// Failures weigh as much as this.
const FAILURE: u64 = 16;
/// The first run gives up after so many nodes, and each later one after half as many more.
const FIRST_FUEL: u64 = 300;
/// After so many runs one comes that does not give up.
const RUNS: u32 = 20;
/// So many runs are plain before every second one is weighted.
const PLAIN_RUNS: u32 = 2;
/// So often the root's multipliers are sought in one decision, if there is too little time for them.
const ROOT_SEARCHES: u32 = 3;

impl<'a> Search<'a> {
    pub fn new(
        table: &'a Table,
        guide: &'a Guide,
        steps: Steps,
        learnt: &'a mut Learnt,
        places: usize,
    ) -> Search<'a> {
        learnt.forget();
        let notes =
            Notes { failures: [0; TASKS], random: 2_463_534_242, credit: 0, skipped: 0, weighted: false };
        Search {
            table,
            guide,
            steps,
            counts: Counts::default(),
            learnt,
            nogoods: Nogoods::new(places),
            listing: false,
            listing_at_once: ListingAtOnce::Untried,
            notes,
            rows: Rows::ZERO,
            versions: 0,
            before_run: (notes, Rows::ZERO),
            fuel: None,
            decision_nodes: 0,
            witness: [0; PROCESSORS],
        }
    }

    /// What the search has cost so far, about in calls of packing.
    pub fn work(&self) -> u64 {
        let node = if self.table.messages.is_empty() { 24 } else { 70 };
        self.counts.nodes * node + self.counts.packing_calls + self.counts.network_calls * 8
    }

    /// The candidates of each processor: kept in the state by step A, else worked out wherever they are asked for.
    pub fn candidates(&mut self, state: &State) -> [u32; PROCESSORS] {
        if self.steps.kept_candidates {
            return state.may;
        }
        std::array::from_fn(|processor| self.candidates_among(state, processor, state.may[processor]))
    }

    /// The state in which the search of a region begins.
    fn begun(&mut self, state: &State) -> State {
        let mut begun = *state;
        for processor in 0..self.table.processors {
            begun.may[processor] = if self.steps.kept_candidates {
                self.candidates_among(state, processor, state.open)
            } else {
                state.open
            };
        }
        begun
    }

    /// The state with one task more, and what each processor may take then.
    fn placed(&mut self, state: &State, task: usize, processor: usize) -> State {
        let mut next = self.table.placed(state, task, processor);
        for other in 0..self.table.processors {
            next.may[other] &= next.open;
            if self.steps.kept_candidates {
                next.may[other] = self.may_still(&next, task, processor, other);
            }
        }
        next
    }

    /// What a processor can take after a task was placed: on another processor only its partners and, by the
    /// network, senders and receivers are lost. A list that is full closes fewer sets than before.
    fn may_still(&mut self, next: &State, task: usize, processor: usize, other: usize) -> u32 {
        if self.lists_in_full() {
            return self.candidates_among(next, other, next.open);
        }
        let may =
            if other == processor { next.may[other] } else { next.may[other] & !self.table.partners[task] };
        if other == processor || !self.table.messages.is_empty() {
            self.candidates_among(next, other, may)
        } else {
            may
        }
    }

    /// Xorshift; 7 bits of it.
    fn noise(&mut self) -> u64 {
        let mut random = self.notes.random;
        random ^= random << 13;
        random ^= random >> 17;
        random ^= random << 5;
        self.notes.random = random;
        u64::from(random & 127)
    }

    /// The open task to place next: few processors left, hard to place, many failures; and a little noise, so that
    /// a restart chooses anew.
    fn pick(&mut self, state: &State) -> usize {
        let candidates = self.candidates(state);
        let (mut picked, mut least) = (0, u64::MAX);
        for task in members(state.open) {
            let choices: u64 = candidates.iter().map(|set| u64::from(set >> task & 1)).sum();
            if choices == 0 {
                self.notes.failures[task] += FAILURE;
                return task;
            }
            let score = (choices << 30) / (self.guide.hardness[task] + self.notes.failures[task]);
            let score = score + score / 1024 * self.noise() / 10;
            if score < least {
                (picked, least) = (task, score);
            }
        }
        picked
    }

    fn seek(&mut self, state: &State) -> Outcome {
        self.counts.nodes += 1;
        if self.fuel.is_some_and(|fuel| self.counts.nodes > fuel) {
            return Outcome::GaveUp;
        }
        if state.open == 0 {
            self.witness = state.on;
            return Outcome::Found;
        }
        if self.is_hopeless(state) {
            return Outcome::Refuted;
        }
        let task = self.pick(state);
        let first = self.noise() as usize;
        let mut state = *state;
        for number in 0..self.table.processors {
            let processor = (number + first) % self.table.processors;
            if !self.is_open_to(&state, task, processor) {
                continue;
            }
            let next = self.placed(&state, task, processor);
            let outcome = self.seek(&next);
            if outcome != Outcome::Refuted {
                return outcome;
            }
            if self.steps.equal_tasks && !self.listing {
                state.may[processor] &= !self.guide.equal_tasks[task];
            }
        }
        self.notes.failures[task] += FAILURE;
        Outcome::Refuted
    }

    /// Whether the task has to be tried on the processor; what closes it there is listed.
    fn is_open_to(&mut self, state: &State, task: usize, processor: usize) -> bool {
        if self.listing {
            return self.table.allows(state, task, processor)
                && !self.table.has_twin(state, processor)
                && !self.is_closed(state.on[processor] | 1 << task);
        }
        let may = state.may[processor] >> task & 1 == 1 && !self.table.has_twin(state, processor);
        may && (self.steps.kept_candidates || self.candidates_among(state, processor, 1 << task) != 0)
    }

    /// Whether the region has a placement: runs that give up, and choose anew with what they have learnt, then one
    /// that does not.
    pub fn decide(&mut self, start: &State) -> bool {
        let before = self.counts.nodes;
        let found = self.run_until_decided(start);
        self.decision_nodes = self.counts.nodes - before;
        found
    }

    fn run_until_decided(&mut self, start: &State) -> bool {
        self.listing = false;
        let state = self.begun(start);
        self.rows.start_from_root(state.open.count_ones() as usize);
        let work_before = self.work();
        let (mut fuel, mut root_searches) = (FIRST_FUEL, 0);
        for run in 0.. {
            let is_last = run >= RUNS;
            let is_weighted = is_last || (run >= PLAIN_RUNS && (run - PLAIN_RUNS).is_multiple_of(2));
            self.notes.weighted = self.steps.adaptive_weights && is_weighted;
            if self.notes.weighted && root_searches < ROOT_SEARCHES {
                let (begun, budget) = (self.work(), self.steps.root_work() + self.work() - work_before);
                if self.is_refuted_at_root(&state, budget) {
                    self.rows.start_from_root(state.open.count_ones() as usize);
                    self.note_start();
                    return false;
                }
                let is_done = self.work() - begun < budget;
                root_searches = if is_done { ROOT_SEARCHES } else { root_searches + 1 };
            }
            self.fuel = (!is_last).then(|| self.counts.nodes + self.share_of(fuel, run));
            self.note_start();
            match self.seek(&state) {
                Outcome::GaveUp => fuel = fuel * 3 / 2,
                outcome => return outcome == Outcome::Found,
            }
        }
        unreachable!("the last run does not give up")
    }

    /// A weighted run takes longer for a node, so that it gets fewer; the plain ones between get more.
    fn share_of(&self, fuel: u64, run: u32) -> u64 {
        match self.notes.weighted {
            true => fuel / 2,
            false if run > PLAIN_RUNS => fuel * 4,
            false => fuel,
        }
    }

    fn note_start(&mut self) {
        self.before_run.0 = self.notes;
        if self.notes.weighted {
            self.before_run.1 = self.rows;
        }
    }

    /// Lists the conflicts of a refuted region by the choices that refuted it. True if a placement is left that
    /// holds none of them, as the list is full.
    pub fn replay(&mut self, start: &State) -> bool {
        self.notes = self.before_run.0;
        if self.notes.weighted {
            self.rows = self.before_run.1;
        }
        (self.listing, self.fuel) = (true, None);
        let state = self.begun(start);
        let is_uncovered = self.seek(&state) == Outcome::Found;
        self.listing = false;
        is_uncovered
    }
}
