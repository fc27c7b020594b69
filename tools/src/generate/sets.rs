//! Task sets with a short hyperperiod and a load around 1, so that a tick run shows all they do.

use crate::model::{Processor, Table, Task, hyperperiod};
use crate::random::Random;
use crate::schedule::{all, response};

/// In the last two most periods have no common divisor.
const FAMILIES: [&[u32]; 6] = [
    &[2, 3, 4, 6, 12],
    &[2, 5, 10, 15, 30],
    &[3, 8, 12, 18, 24, 72],
    &[4, 5, 6, 10, 20, 40, 60, 120],
    &[1, 2, 7, 14],
    &[5, 7, 9],
];

/// One to six tasks; some sets are then brought to a load of exactly 1 or a little above, or get a
/// deadline that is just met or just missed.
pub fn random_set(random: &mut Random) -> Vec<Task> {
    let mut tasks = plain_set(random);
    match random.below(6) {
        0 => fill(random, &mut tasks, 0),
        1 => fill(random, &mut tasks, 1),
        2 => meet_deadline(random, &mut tasks, 0),
        3 => meet_deadline(random, &mut tasks, 1),
        4 => slow_chain(random, &mut tasks),
        _ => {}
    }
    tasks
}

/// The work in one hyperperiod.
pub fn load(tasks: &[Task]) -> u32 {
    let hyperperiod = hyperperiod(tasks);
    tasks.iter().map(|task| hyperperiod / task.period * task.execution).sum()
}

fn plain_set(random: &mut Random) -> Vec<Task> {
    let count = 1 + random.below(6);
    crowded_set(random, count, count as u32)
}

/// A task that takes on average one part in `crowd` of a processor.
fn task(random: &mut Random, periods: &[u32], crowd: u32, priority: u16) -> Task {
    let period = random.pick(periods);
    let execution = random.within(1, (2 * period / crowd).clamp(1, period));
    let deadline = match random.below(4) {
        0 => execution,
        1 => random.within(execution, period),
        _ => period,
    };
    Task { execution, period, deadline, memory: 0, priority, residence: 1 }
}

/// A table of these tasks with processors that restrict nothing; all tasks may stand anywhere.
pub fn free_table(tasks: Vec<Task>, processors: usize) -> Table {
    let anywhere = (1 << processors) - 1;
    Table {
        capacity: 0,
        processors: vec![Processor { memory: u32::MAX, limit: 1000 }; processors],
        hyperperiod: hyperperiod(&tasks),
        tasks: tasks.into_iter().map(|task| Task { residence: anywhere, ..task }).collect(),
        co_resident: Vec::new(),
        exclusive: Vec::new(),
        messages: Vec::new(),
    }
}

/// So many tasks of one family of periods, of which about `crowd` load a processor.
pub fn crowded_set(random: &mut Random, count: usize, crowd: u32) -> Vec<Task> {
    let family = random.pick(&FAMILIES);
    let mut priorities: Vec<u16> = (1..=count as u16).map(|k| 10 * k).collect();
    random.shuffle(&mut priorities);
    priorities.iter().map(|&priority| task(random, family, crowd, priority)).collect()
}

/// Adds a task that takes all that is left of the processor and `excess` more.
fn fill(random: &mut Random, tasks: &mut Vec<Task>, excess: u32) {
    let period = hyperperiod(tasks);
    let left = period.saturating_sub(load(tasks));
    let execution = (left + excess).min(period);
    if left > 0 {
        let priority = random.pick(&[1, 15, 99]);
        tasks.push(Task { execution, period, deadline: period, memory: 0, priority, residence: 1 });
    }
}

/// Gives a task a deadline at its response, or `short` before it.
fn meet_deadline(random: &mut Random, tasks: &mut [Task], short: u32) {
    let task = random.below(tasks.len());
    tasks[task].deadline = tasks[task].period;
    let response = response(tasks, all(tasks), task);
    tasks[task].deadline = response.saturating_sub(short).max(tasks[task].execution);
}

/// A task that leaves one tick in each period above one that takes many of these.
fn slow_chain(random: &mut Random, tasks: &mut Vec<Task>) {
    let period = random.within(2, 30);
    let many = random.within(1, period);
    let high = Task { execution: period - 1, period, deadline: period, memory: 0, priority: 2, residence: 1 };
    let long = period * period;
    let low = Task { execution: many, period: long, deadline: long, memory: 0, priority: 1, residence: 1 };
    *tasks = vec![low, high];
}
