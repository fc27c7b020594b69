//! Step C: weights that adapt to a region. Any weights give a right bound, so they may be looked for: a task that the
//! best packings leave out gets heavier, one that several of them take gets lighter, until the open tasks weigh more
//! than the processors can take. This is the subgradient method for the Lagrange multipliers of "every task once";
//! with step D the network's capacity has a multiplier too, the price. All in whole numbers.

use crate::guide::{BOTH, Row};
use crate::knapsack::sum_of;
use crate::search::Search;
use crate::state::State;
use crate::table::{PROCESSORS, TASKS, members};
use std::cmp::Reverse;

#[derive(Clone, Copy)]
pub struct Multipliers {
    pub weight: [i64; TASKS],
    /// Of one unit of traffic; 0 without step D.
    pub price: i64,
    /// The same number stands for the same multipliers.
    version: u32,
}

/// What the processors can take under some multipliers.
pub struct Packed {
    pub gap: i64,
    pub sets: [u32; PROCESSORS],
    /// The messages that the best packings keep within processors, and how many must be kept there.
    pub inside: i64,
    pub inside_needed: i64,
}

/// The best multipliers of the regions above, one row for each number of open tasks: a region starts from those of
/// the region around it, which has one open task more.
#[derive(Clone, Copy)]
pub struct Rows([Multipliers; ROOT + 1]);

/// The row of the last root, and in a table of 24 tasks the row above the root that has them all open.
const ROOT: usize = TASKS + 1;

impl Rows {
    pub const ZERO: Rows = Rows([Multipliers { weight: [0; TASKS], price: 0, version: 0 }; ROOT + 1]);

    /// The row above a root with so many open tasks becomes that of the last root. So the first node of a run starts
    /// from what the decision before came to; in the first decision on a table of fewer than 24 tasks that is nothing,
    /// and its weighted runs refute nothing.
    pub fn start_from_root(&mut self, open: usize) {
        self.0[open + 1] = self.0[ROOT];
    }
}

const ROOT_ROUNDS: u32 = 200;
const NODE_ROUNDS: u32 = 21;
/// Directions are in so many parts of one.
const PARTS: i64 = 256;
/// The part of the gap by which a step goes, in millionths: at the root it falls from all to the least one.
const ROOT_RATE: i64 = 1_000_000;
const LEAST_RATE: i64 = 20_000;
const NODE_RATE: i64 = 300_000;
/// After so many rounds without gain the root goes back to the best multipliers and takes smaller steps.
const PATIENCE: u32 = 8;

impl Multipliers {
    /// Versions of rows that do not adapt are below this.
    pub fn row_version(&self) -> u32 {
        (self.version + 1) << 3
    }

    /// What a task adds to a processor that has messages of this weight with it.
    pub fn worth(&self, task: usize, links: i64) -> i64 {
        self.weight[task] + self.price * links
    }

    fn double(&mut self) {
        self.weight = self.weight.map(|weight| (weight * 2).clamp(-(1 << 44), 1 << 44));
        self.price *= 2;
    }

    fn halve(&mut self) {
        self.weight = self.weight.map(|weight| weight / 2);
        self.price /= 2;
    }
}

/// Where the subgradient method stands: its smoothed direction and the length of its steps.
struct Descent {
    direction: [i64; TASKS],
    price_direction: i64,
    rate: i64,
    /// What the multipliers came to at its start.
    scale: i64,
    rounds: u32,
}

impl Search<'_> {
    fn prices_network(&self) -> bool {
        self.steps.network_bound && !self.table.messages.is_empty()
    }

    /// What the open tasks are to weigh together, up to a factor of two.
    fn usual_scale(&self) -> i64 {
        if self.prices_network() { 1 << 36 } else { 1 << 22 }
    }

    /// The weights by load and memory; the price makes all traffic count as much.
    fn first_multipliers(&self, state: &State) -> Multipliers {
        let scale = self.usual_scale();
        let weights = &self.guide.rows[BOTH as usize].weight;
        let all = sum_of(weights, state.open).max(1) as i64;
        let of_task = &self.guide.links.of_task;
        let price = if self.prices_network() { scale / (of_task.iter().sum::<i64>() / 2 + 1) } else { 0 };
        let weight =
            std::array::from_fn(|task| i64::from(weights[task]) * scale / all - price * of_task[task] / 2);
        Multipliers { weight, price, version: 1 }
    }

    /// What the multipliers of the open tasks come to, half of each message counted at either end.
    fn scale_of(&self, multipliers: &Multipliers, open: u32) -> i64 {
        let half = |task: usize| multipliers.price * self.guide.links.of_task[task] / 2;
        members(open).map(|task| (multipliers.weight[task] + half(task)).abs()).sum()
    }

    /// Whether multipliers are found that refute the region in which a decision begins, before this much work is
    /// done. The best ones are kept for the regions below and for the next decision.
    pub fn is_refuted_at_root(&mut self, state: &State, budget: u64) -> bool {
        let open = state.open.count_ones() as usize;
        let mut multipliers = self.rows.0[ROOT];
        if self.versions == 0 {
            self.versions = 1;
            multipliers = self.first_multipliers(state);
        }
        let candidates = self.candidates(state);
        let end = self.work() + budget;
        let mut descent = self.descent(&multipliers, state.open, ROOT_RATE);
        let (mut least, mut idle) = (i64::MAX, 0);
        for round in 1..=ROOT_ROUNDS {
            let packed = self.packed(state, &candidates, &multipliers, false);
            if packed.gap < least {
                (least, idle) = (packed.gap, 0);
                self.rows.0[open] = multipliers;
            } else {
                idle += 1;
                if idle == PATIENCE {
                    idle = 0;
                    multipliers = self.rows.0[open];
                    descent.shorten();
                }
            }
            let is_last = round == ROOT_ROUNDS || descent.rate < LEAST_RATE || self.work() > end;
            if packed.gap < 0 || is_last || !self.step(&mut descent, state.open, &packed, &mut multipliers) {
                break;
            }
        }
        self.rows.0[ROOT] = self.rows.0[open];
        least < 0
    }

    /// The same in a region below, in a few rounds from the multipliers of the region around it.
    pub fn is_refuted_by_multipliers(&mut self, state: &State, candidates: &[u32; PROCESSORS]) -> bool {
        let open = state.open.count_ones() as usize;
        let mut multipliers = self.rows.0[open + 1];
        let mut descent = self.descent(&multipliers, state.open, NODE_RATE);
        let mut least = i64::MAX;
        for round in 1..=NODE_ROUNDS {
            let packed = self.packed(state, candidates, &multipliers, round > 1);
            if packed.gap < least {
                least = packed.gap;
                self.rows.0[open] = multipliers;
            }
            let is_last = round == NODE_ROUNDS || (round == 1 && packed.gap > descent.scale);
            if packed.gap < 0 || is_last || !self.step(&mut descent, state.open, &packed, &mut multipliers) {
                break;
            }
        }
        least < 0
    }

    fn descent(&self, multipliers: &Multipliers, open: u32, rate: i64) -> Descent {
        let scale = self.scale_of(multipliers, open);
        Descent { direction: [0; TASKS], price_direction: 0, rate, scale, rounds: 0 }
    }

    fn packed(
        &mut self,
        state: &State,
        candidates: &[u32; PROCESSORS],
        multipliers: &Multipliers,
        brief: bool,
    ) -> Packed {
        if self.prices_network() {
            return self.fill_with_network(state, candidates, multipliers);
        }
        let weight = multipliers.weight.map(|weight| weight as u32);
        let mut order = self.guide.rows[BOTH as usize].order;
        order[..self.table.tasks].sort_by_key(|&task| Reverse(weight[task]));
        let row = Row { weight, order, version: multipliers.row_version() };
        let filling = self.fill(state, candidates, &row, brief);
        Packed { gap: filling.gap, sets: filling.sets, inside: 0, inside_needed: 0 }
    }

    /// One step against the subgradient; false if there is none, as every open task is packed once.
    fn step(
        &mut self,
        descent: &mut Descent,
        open: u32,
        packed: &Packed,
        multipliers: &mut Multipliers,
    ) -> bool {
        let mean = self.guide.links.mean;
        let square = descent.turn(open, packed, mean);
        if square == 0 {
            return false;
        }
        let length = (packed.gap + descent.scale / 200 + 1) * (descent.rate / 10_000) / 100;
        for task in members(open) {
            let move_by = length * descent.direction[task];
            multipliers.weight[task] -= move_by / square * PARTS + move_by % square * PARTS / square;
            if !self.prices_network() {
                multipliers.weight[task] = multipliers.weight[task].max(0);
            }
        }
        let cheaper = length / mean * descent.price_direction / square * PARTS;
        multipliers.price = (multipliers.price - cheaper).max(0);
        self.rescale(multipliers, open);
        self.versions += 1;
        multipliers.version = self.versions;
        true
    }

    /// Doubles or halves the multipliers until they are near the usual scale.
    fn rescale(&self, multipliers: &mut Multipliers, open: u32) {
        let usual = self.usual_scale();
        loop {
            match self.scale_of(multipliers, open) {
                0 => return,
                scale if scale > usual * 2 => multipliers.halve(),
                scale if scale * 2 < usual => multipliers.double(),
                _ => return,
            }
        }
    }
}

impl Descent {
    /// Forgets the direction, and goes on in steps of two thirds.
    fn shorten(&mut self) {
        self.rate = self.rate * 66 / 100;
        self.direction = [0; TASKS];
        self.price_direction = 0;
    }

    /// Turns the direction towards the subgradient of these packings; the square of its length comes back.
    fn turn(&mut self, open: u32, packed: &Packed, mean: i64) -> i64 {
        let is_first = self.rounds == 0;
        self.rounds += 1;
        let smoothed = |old: i64, new: i64| if is_first { new } else { (old * 6 + new * 4) / 10 };
        let mut square = 0;
        for task in members(open) {
            let times = packed.sets.iter().map(|set| i64::from(set >> task & 1)).sum::<i64>();
            let turned = smoothed(self.direction[task], (times - 1) * PARTS);
            self.direction[task] = turned;
            square += turned * turned;
        }
        self.price_direction =
            smoothed(self.price_direction, (packed.inside - packed.inside_needed) * PARTS / mean);
        square + self.price_direction * self.price_direction
    }
}
