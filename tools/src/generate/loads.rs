//! The repeatable loads of request 2026-12: the same table for the same seed, on any machine.

use crate::model::{Processor, Table, Task, hyperperiod};

const PERIODS: [u32; 6] = [10, 20, 40, 50, 100, 200];

/// The seed is not 0: the state would stay there, and every draw be 0.
pub fn loads(seed: u32, tasks: usize, processors: usize) -> Table {
    let mut draws = Draws { state: seed };
    let residence = ((1 << processors) - 1) as u16;
    let tasks: Vec<Task> = (0..tasks).map(|number| task(&mut draws, number as u16, residence)).collect();
    Table {
        capacity: 0,
        processors: vec![Processor { memory: 4096, limit: 1000 }; processors],
        co_resident: Vec::new(),
        exclusive: Vec::new(),
        messages: Vec::new(),
        hyperperiod: hyperperiod(&tasks),
        tasks,
    }
}

/// Four draws, in this order.
fn task(draws: &mut Draws, priority: u16, residence: u16) -> Task {
    let period = PERIODS[draws.below(6) as usize];
    let execution = 1 + draws.below(period / 5);
    let deadline = execution + draws.below(period - execution + 1);
    let memory = 1 + draws.below(64);
    Task { execution, period, deadline, memory, priority, residence }
}

/// Marsaglia's xorshift32.
struct Draws {
    state: u32,
}

impl Draws {
    fn below(&mut self, bound: u32) -> u32 {
        self.state ^= self.state << 13;
        self.state ^= self.state >> 17;
        self.state ^= self.state << 5;
        self.state % bound
    }
}

#[cfg(test)]
mod tests {
    use super::*;
    use crate::file::encode;
    use crate::reader::read;

    /// From 1: 1 ^ 2^13 is 8193, shifted right by 17 nothing, ^ 8193 × 32 is 270369. The draws after it are
    /// 67634689, 2647435461, 307599695; then 2398689233, 745495504, 632435482, 435756210.
    /// Task 0: 270369 is 3 by 6, T 50; 67634689 is 9 by 10, C 10; 2647435461 is 25 by 41, D 35; 307599695 is
    /// 15 by 64, memory 16. Task 1: 5 by 6, T 200; 24 by 40, C 25; 74 by 176, D 99; 50 by 64, memory 51.
    #[test]
    fn the_first_tasks_of_seed_1_are_as_worked_out_by_hand() {
        let table = loads(1, 2, 3);
        let residence = 0b111;
        let tasks = [
            Task { execution: 10, period: 50, deadline: 35, memory: 16, priority: 0, residence },
            Task { execution: 25, period: 200, deadline: 99, memory: 51, priority: 1, residence },
        ];
        assert_eq!(table.tasks, tasks);
        assert_eq!(table.processors, [Processor { memory: 4096, limit: 1000 }; 3]);
        assert_eq!((table.capacity, table.hyperperiod), (0, 200));
    }

    #[test]
    fn every_table_is_read() {
        for seed in 1..=1000 {
            let table = loads(seed, 1 + seed as usize % 24, 1 + seed as usize % 8);
            assert_eq!(read(&encode(&table)).as_ref(), Ok(&table));
        }
    }
}
