//! Tables like tables/lamps.txt: two cards have the memory for eight lamps each, and eight on a card are late,
//! so that every way to share them out is late by sets of its own.

use super::sets::free_table;
use crate::model::{Processor, Table, Task};
use crate::random::Random;

/// Fifteen or sixteen lamps. One of fifteen may have a third card to stand on: with it there the others are
/// in time, seven on each card, and the placements before that one are many if the lamp is an early one.
pub fn lamps(random: &mut Random) -> Table {
    let count = random.pick(&[15, 16]);
    let mut priorities: Vec<u16> = (0..count as u16).collect();
    random.shuffle(&mut priorities);
    let period = random.pick(&[20, 30, 60]);
    let lamp = |&priority: &u16| Task {
        execution: 1,
        period: random.pick(&[period, 2 * period]),
        deadline: 7,
        memory: 10,
        priority,
        residence: 0,
    };
    let tasks: Vec<Task> = priorities.iter().map(lamp).collect();
    let mut table = Table {
        processors: vec![Processor { memory: 80 + random.within(0, 9), limit: 1000 }; 3],
        ..free_table(tasks, 3)
    };
    table.tasks.iter_mut().for_each(|task| task.residence = 0b011);
    if count == 15 {
        let any = random.below(count);
        table.tasks[random.pick(&[0, 0, 1, any])].residence = 0b111;
    }
    table
}
