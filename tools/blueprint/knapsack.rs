//! How much more of some weights a processor can take: the best packing of its candidates, by recursion over subsets.

use crate::guide::{LOAD, MEMORY, Row};
use crate::search::Search;
use crate::state::State;
use crate::table::{PROCESSORS, TASKS, members};

/// The tasks on a processor, and what is left of its memory and load.
#[derive(Clone, Copy)]
pub struct Site {
    pub on: u32,
    pub memory: u64,
    pub load: u64,
}

impl State {
    pub fn site(&self, processor: usize) -> Site {
        Site { on: self.on[processor], memory: self.memory[processor], load: self.load[processor] }
    }

    /// The lowest earlier processor that has, has left and can take the same.
    pub fn same_before(&self, candidates: &[u32; PROCESSORS], processor: usize) -> Option<usize> {
        let all = |p: usize| (self.on[p], candidates[p], self.memory[p], self.load[p]);
        (0..processor).find(|&other| all(other) == all(processor))
    }
}

/// What a best packing weighs, or a bound on it, and the tasks of the heaviest packing seen.
#[derive(Clone, Copy, Default)]
pub struct Best {
    pub weight: i64,
    pub set: u32,
}

/// What all processors can take.
pub struct Filling {
    /// What they can take together, less what the open tasks weigh. Below 0 they cannot take all.
    pub gap: i64,
    pub sets: [u32; PROCESSORS],
}

struct Packing<'a> {
    row: &'a Row,
    /// No packing can be heavier, so that one of this weight ends the search.
    stop: u64,
    best: u64,
    best_set: u32,
    calls_left: u64,
}

pub fn sum_of(weight: &[u32; TASKS], set: u32) -> u64 {
    members(set).map(|task| u64::from(weight[task])).sum()
}

impl Search<'_> {
    /// Packs one processor after another. A brief filling ends as soon as the rest cannot be taken, so that the
    /// packings of the processors behind are missing.
    pub fn fill(&mut self, state: &State, candidates: &[u32; PROCESSORS], row: &Row, brief: bool) -> Filling {
        let need = sum_of(&row.weight, state.open);
        let mut most: [u64; PROCESSORS] =
            std::array::from_fn(|p| self.most_by_sum(state, candidates[p], row, p));
        let mut sets = [0; PROCESSORS];
        let mut sum: u64 = most.iter().sum();
        if sum < need {
            return Filling { gap: sum as i64 - need as i64, sets };
        }
        for processor in 0..self.table.processors {
            let best = match state.same_before(candidates, processor) {
                Some(other) => Best { weight: most[other] as i64, set: sets[other] },
                None => self.best_packing(state, processor, candidates[processor], row, most[processor]),
            };
            let weight = most[processor].min(best.weight as u64);
            sum -= most[processor] - weight;
            (most[processor], sets[processor]) = (weight, best.set);
            if brief && sum < need {
                break;
            }
        }
        Filling { gap: sum as i64 - need as i64, sets }
    }

    /// What the candidates weigh together, but no more than there is room for.
    fn most_by_sum(&self, state: &State, candidates: u32, row: &Row, processor: usize) -> u64 {
        let sum = sum_of(&row.weight, candidates);
        match row.version {
            LOAD => sum.min(state.load[processor] / self.guide.units[0]),
            MEMORY => sum.min(state.memory[processor] / self.guide.units[1]),
            _ => sum,
        }
    }

    fn best_packing(
        &mut self,
        state: &State,
        processor: usize,
        candidates: u32,
        row: &Row,
        stop: u64,
    ) -> Best {
        if candidates == 0 {
            return Best::default();
        }
        self.counts.packings += 1;
        let key = self.key(state.on[processor], candidates, row.version, processor);
        if let Some(best) = self.recalled(&key) {
            return best;
        }
        let site = state.site(processor);
        let calls = self.steps.packing_calls();
        let mut packing = Packing { row, stop, best: 0, best_set: site.on, calls_left: calls };
        self.pack(&mut packing, site, 0, candidates, 0, sum_of(&row.weight, candidates));
        self.counts.packing_calls += calls - packing.calls_left;
        let best = Best { weight: packing.best as i64, set: packing.best_set & !site.on };
        self.keep(key, best);
        best
    }

    /// Tries the candidates from a position of the order on: `taken` weighs what is packed, `rest` the candidates.
    fn pack(
        &mut self,
        packing: &mut Packing,
        site: Site,
        mut position: usize,
        mut candidates: u32,
        taken: u64,
        mut rest: u64,
    ) {
        if taken > packing.best {
            (packing.best, packing.best_set) = (taken, site.on);
        }
        if packing.calls_left == 0 {
            packing.best = packing.best.max(taken + rest);
            return;
        }
        packing.calls_left -= 1;
        while candidates != 0 && packing.best < packing.stop && taken + rest > packing.best {
            let task = packing.row.order[position];
            position += 1;
            if candidates >> task & 1 == 0 {
                continue;
            }
            candidates &= !(1 << task);
            let weight = u64::from(packing.row.weight[task]);
            rest -= weight;
            if self.fits(site, task) {
                self.pack(packing, self.with_task(site, task), position, candidates, taken + weight, rest);
            }
        }
    }

    pub fn fits(&mut self, site: Site, task: usize) -> bool {
        self.table.memory[task] <= site.memory
            && self.table.load[task] <= site.load
            && self.table.excluded[task] & site.on == 0
            && !self.is_closed(site.on | 1 << task)
    }

    pub fn with_task(&self, site: Site, task: usize) -> Site {
        Site {
            on: site.on | 1 << task,
            memory: site.memory - self.table.memory[task],
            load: site.load - self.table.load[task],
        }
    }
}
