//! Step D: packings that pay for the messages they keep off the network. With a price for a unit of traffic a set is
//! worth the weights of its tasks and the price of every message within the processor; the processors together must
//! be worth the weights of all open tasks and the price of all traffic that the network cannot carry.

use crate::knapsack::{Best, Site};
use crate::multipliers::{Multipliers, Packed};
use crate::search::Search;
use crate::state::State;
use crate::table::{PROCESSORS, TASKS, members};
use std::cmp::Reverse;

struct NetworkPacking<'a> {
    multipliers: &'a Multipliers,
    order: &'a [usize; TASKS],
    best: i64,
    best_set: u32,
    calls_left: u64,
    calls: u64,
}

/// What each candidate can add at most, if those behind it in the order come too.
struct Potentials {
    of_task: [i64; TASKS],
    sum: i64,
    /// The candidates that fit.
    fitting: u32,
}

impl Search<'_> {
    pub fn fill_with_network(
        &mut self,
        state: &State,
        candidates: &[u32; PROCESSORS],
        multipliers: &Multipliers,
    ) -> Packed {
        let order = self.network_order(multipliers);
        let inside_needed = self.inside_needed(state);
        let need = multipliers.price * inside_needed
            + members(state.open).map(|task| multipliers.weight[task]).sum::<i64>();
        let mut bests = [Best::default(); PROCESSORS];
        for processor in 0..self.table.processors {
            bests[processor] = match state.same_before(candidates, processor) {
                Some(other) => bests[other],
                None => self.best_with_network(state, processor, candidates[processor], multipliers, &order),
            };
        }
        let inside = (0..PROCESSORS).map(|p| self.links_inside(state.on[p], bests[p].set)).sum();
        let gap = bests.iter().map(|best| best.weight).sum::<i64>() - need;
        Packed { gap, sets: bests.map(|best| best.set), inside, inside_needed }
    }

    /// The messages of open tasks that must stay within processors, as the network cannot carry all.
    fn inside_needed(&self, state: &State) -> i64 {
        let is_open = |task: usize| state.open >> task & 1 == 1;
        let messages = self.table.messages.iter();
        let open = messages.filter(|message| is_open(message.sender) || is_open(message.receiver));
        let all = state.traffic + open.map(|message| message.amount).sum::<u64>();
        all.saturating_sub(self.table.capacity).div_ceil(self.guide.links.unit) as i64
    }

    /// The messages that come to lie within a processor with `on` when these tasks are added.
    fn links_inside(&self, mut on: u32, added: u32) -> i64 {
        let mut inside = 0;
        for task in members(added) {
            inside += self.guide.links.with(task, on);
            on |= 1 << task;
        }
        inside
    }

    /// Tasks first that are worth much, half of their messages counted.
    fn network_order(&self, multipliers: &Multipliers) -> [usize; TASKS] {
        let of_task = &self.guide.links.of_task;
        let values: [i64; TASKS] =
            std::array::from_fn(|task| multipliers.weight[task] * 2 + multipliers.price * of_task[task]);
        let mut order = std::array::from_fn(|task| task);
        order[..self.table.tasks].sort_by_key(|&task| Reverse(values[task]));
        order
    }

    fn best_with_network(
        &mut self,
        state: &State,
        processor: usize,
        candidates: u32,
        multipliers: &Multipliers,
        order: &[usize; TASKS],
    ) -> Best {
        if candidates == 0 {
            return Best::default();
        }
        self.counts.packings += 1;
        let key = self.key(state.on[processor], candidates, multipliers.row_version(), processor);
        if let Some(best) = self.recalled(&key) {
            return best;
        }
        let site = state.site(processor);
        let calls_left = self.steps.packing_calls();
        let mut packing =
            NetworkPacking { multipliers, order, best: 0, best_set: site.on, calls_left, calls: 0 };
        self.pack_with_network(&mut packing, site, 0, candidates, 0);
        self.counts.network_calls += packing.calls;
        let best = Best { weight: packing.best, set: packing.best_set & !site.on };
        self.keep(key, best);
        best
    }

    /// Tries the candidates from a position of the order on, behind packed tasks of the worth `taken`.
    fn pack_with_network(
        &mut self,
        packing: &mut NetworkPacking,
        site: Site,
        position: usize,
        candidates: u32,
        taken: i64,
    ) {
        packing.calls += 1;
        if taken > packing.best {
            (packing.best, packing.best_set) = (taken, site.on);
        }
        if candidates == 0 {
            return;
        }
        let mut potentials = self.potentials(packing, site, position, candidates);
        if packing.calls_left == 0 {
            packing.best = packing.best.max(taken + potentials.sum);
            return;
        }
        packing.calls_left -= 1;
        for at in position..self.table.tasks {
            if potentials.fitting == 0 || taken + potentials.sum <= packing.best {
                break;
            }
            let task = packing.order[at];
            if potentials.fitting >> task & 1 == 1 {
                potentials.fitting &= !(1 << task);
                let worth = taken + packing.multipliers.worth(task, self.guide.links.with(task, site.on));
                let next = self.with_task(site, task);
                self.pack_with_network(packing, next, at + 1, potentials.fitting, worth);
                potentials.sum -= potentials.of_task[task];
            }
        }
    }

    fn potentials(
        &mut self,
        packing: &NetworkPacking,
        site: Site,
        position: usize,
        candidates: u32,
    ) -> Potentials {
        let mut potentials = Potentials { of_task: [0; TASKS], sum: 0, fitting: 0 };
        for &task in packing.order[position..self.table.tasks].iter().rev() {
            if candidates >> task & 1 == 0 || !self.fits(site, task) {
                continue;
            }
            let links =
                self.guide.links.with(task, site.on) + self.guide.links.with(task, potentials.fitting);
            potentials.of_task[task] = packing.multipliers.worth(task, links).max(0);
            potentials.sum += potentials.of_task[task];
            potentials.fitting |= 1 << task;
        }
        potentials
    }
}
