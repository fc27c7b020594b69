//! Random tables that a reader must accept, with the limits of 01 reached often.

use crate::model::*;
use crate::random::Random;

/// How many records of each kind; where the tasks allow fewer groups or messages there are fewer.
#[derive(Clone, Copy, Debug)]
pub struct Shape {
    pub processors: usize,
    pub tasks: usize,
    pub co_resident: usize,
    pub exclusive: usize,
    pub messages: usize,
    /// At most so many different periods.
    pub periods: usize,
}

impl Shape {
    /// As many of everything as a file may hold: 1,302 bytes. Two periods among 24 tasks leave
    /// at least 2 × 12 × 11 = 264 pairs for the 64 messages.
    pub const FULL: Shape = Shape {
        processors: MOST_PROCESSORS,
        tasks: MOST_TASKS,
        co_resident: MOST_GROUPS,
        exclusive: MOST_GROUPS,
        messages: MOST_MESSAGES,
        periods: 2,
    };

    pub fn random(random: &mut Random) -> Shape {
        let tasks = 1 + random.below(MOST_TASKS);
        Shape {
            processors: 1 + random.below(MOST_PROCESSORS),
            tasks,
            co_resident: often_few(random, MOST_GROUPS),
            exclusive: often_few(random, MOST_GROUPS),
            messages: often_few(random, MOST_MESSAGES),
            periods: 1 + random.below(tasks),
        }
    }
}

/// Zero, a few or any number up to `most`, so that short files are not rare.
fn often_few(random: &mut Random, most: usize) -> usize {
    match random.below(3) {
        0 => 0,
        1 => random.below(4),
        _ => random.below(most + 1),
    }
}

pub fn table(random: &mut Random, shape: Shape) -> Table {
    let periods = periods(random, shape.periods);
    let tasks = tasks(random, shape, &periods);
    Table {
        capacity: any_word(random),
        processors: (0..shape.processors).map(|_| processor(random)).collect(),
        co_resident: groups(random, shape.co_resident, shape.tasks),
        exclusive: groups(random, shape.exclusive, shape.tasks),
        messages: messages(random, shape.messages, &tasks),
        hyperperiod: hyperperiod(&tasks),
        tasks,
    }
}

/// At least one period and at most `count`, so that their least common multiple keeps the limit.
fn periods(random: &mut Random, count: usize) -> Vec<u32> {
    let family = random.below(4);
    let mut multiple = 1;
    let mut periods = Vec::new();
    for _ in 0..count {
        let period = period(random, family);
        let joined = least_common_multiple(multiple, period);
        if joined <= LARGEST_HYPERPERIOD {
            multiple = joined as u32;
            periods.push(period);
        }
    }
    periods
}

/// Any period, a short one, a divisor of a million, or one that brings H close to its limit:
/// 333,667 × 2,997 = 999,999,999. No table has H = 1,000,000,000, as 5^9 exceeds every period.
fn period(random: &mut Random, family: usize) -> u32 {
    match family {
        0 => random.within(1, LONGEST_PERIOD),
        1 => random.within(1, 20),
        2 => random.pick(&[1, 2, 5, 8, 10, 25, 40, 64, 100, 125, 200, 1000, 15_625, 1_000_000]),
        _ => random.pick(&[1, 27, 37, 81, 999, 2997, 333_667, 1_000_000]),
    }
}

fn tasks(random: &mut Random, shape: Shape, periods: &[u32]) -> Vec<Task> {
    let all = (1 << shape.processors) - 1;
    let of_priority = |priority: u16, random: &mut Random| {
        let (execution, deadline, period) = times(random, periods);
        let residence = random.within(1, all) as u16;
        Task { execution, period, deadline, memory: any_word(random), priority, residence }
    };
    priorities(random, shape.tasks).into_iter().map(|priority| of_priority(priority, random)).collect()
}

/// Different priorities, often with the smallest and the largest among them.
fn priorities(random: &mut Random, count: usize) -> Vec<u16> {
    let mut priorities = vec![0, u16::MAX];
    while priorities.len() < count + 1 {
        let priority = random.draw() as u16;
        if !priorities.contains(&priority) {
            priorities.push(priority);
        }
    }
    random.shuffle(&mut priorities);
    priorities.truncate(count);
    priorities
}

/// C, D and T with 1 ≤ C ≤ D ≤ T, often equal.
fn times(random: &mut Random, periods: &[u32]) -> (u32, u32, u32) {
    let period = random.pick(periods);
    let deadline = if random.once_in(3) { period } else { random.within(1, period) };
    let execution = match random.below(4) {
        0 => 1,
        1 => deadline,
        _ => random.within(1, deadline),
    };
    (execution, deadline, period)
}

fn processor(random: &mut Random) -> Processor {
    let limit = match random.below(4) {
        0 => 1,
        1 => LARGEST_LIMIT,
        _ => random.within(1, u32::from(LARGEST_LIMIT)) as u16,
    };
    Processor { memory: any_word(random), limit }
}

fn any_word(random: &mut Random) -> u32 {
    match random.below(4) {
        0 => 0,
        1 => u32::MAX,
        _ => random.draw() as u32,
    }
}

/// None if there are not two tasks.
pub(super) fn groups(random: &mut Random, count: usize, tasks: usize) -> Vec<u32> {
    if tasks < 2 {
        return Vec::new();
    }
    (0..count).map(|_| group(random, tasks)).collect()
}

/// A mask of at least two tasks out of at least two.
fn group(random: &mut Random, tasks: usize) -> u32 {
    let first = random.below(tasks);
    let second = (first + 1 + random.below(tasks - 1)) % tasks;
    let more = if random.once_in(2) { random.draw() as u32 & ((1 << tasks) - 1) } else { 0 };
    1 << first | 1 << second | more
}

fn messages(random: &mut Random, count: usize, tasks: &[Task]) -> Vec<Message> {
    let mut pairs: Vec<(usize, usize)> = possible_messages(tasks).collect();
    random.shuffle(&mut pairs);
    pairs.truncate(count);
    let message = |(sender, receiver)| Message {
        sender: sender as u8,
        receiver: receiver as u8,
        amount: amount(random),
    };
    pairs.into_iter().map(message).collect()
}

/// Ordered pairs of different tasks with equal periods.
pub(super) fn possible_messages(tasks: &[Task]) -> impl Iterator<Item = (usize, usize)> {
    let all = (0..tasks.len()).flat_map(|one| (0..tasks.len()).map(move |other| (one, other)));
    all.filter(|&(one, other)| one != other && tasks[one].period == tasks[other].period)
}

fn amount(random: &mut Random) -> u32 {
    match random.below(4) {
        0 => 1,
        1 => LARGEST_AMOUNT,
        _ => random.within(1, LARGEST_AMOUNT),
    }
}

#[cfg(test)]
mod tests {
    use super::*;
    use crate::file::encode;
    use crate::reader::read;

    #[test]
    fn every_table_is_read_as_it_was_written() {
        let mut random = Random::new(1);
        for _ in 0..5_000 {
            let shape = Shape::random(&mut random);
            let table = table(&mut random, shape);
            assert_eq!(read(&encode(&table)).as_ref(), Ok(&table));
        }
    }

    #[test]
    fn the_full_table_has_1302_bytes() {
        let mut random = Random::new(2);
        for _ in 0..100 {
            let table = table(&mut random, Shape::FULL);
            assert_eq!(encode(&table).len(), 1302);
            assert_eq!(read(&encode(&table)).as_ref(), Ok(&table));
        }
    }

    #[test]
    fn the_limits_occur() {
        let mut random = Random::new(3);
        let tables: Vec<Table> = (0..5_000)
            .map(|_| {
                let shape = Shape::random(&mut random);
                table(&mut random, shape)
            })
            .collect();
        let some = |test: &dyn Fn(&Table) -> bool| assert!(tables.iter().any(test));
        some(&|table| table.hyperperiod == 999_999_999);
        some(&|table| table.hyperperiod == 999_000_000);
        some(&|table| table.processors.len() == 8 && table.tasks.len() == 24);
        some(&|table| table.co_resident.len() == 16);
        some(&|table| table.exclusive.len() == 16);
        some(&|table| table.messages.len() == 64);
        some(&|table| table.tasks.iter().any(|task| task.execution == 1 && task.period == 1));
        some(&|table| table.tasks.iter().any(|task| task.execution == 1_000_000));
        some(&|table| table.tasks.iter().any(|task| task.priority == 0 && task.memory == u32::MAX));
        some(&|table| table.tasks.iter().any(|task| task.priority == 65_535 && task.memory == 0));
    }
}
