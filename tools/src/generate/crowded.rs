//! Tables near to what their processors can take, in which every rule is sometimes broken.

use super::sets::{crowded_set, free_table, load, random_set};
use super::tables::groups;
use crate::model::{Message, Processor, Table, Task};
use crate::random::Random;

/// At most 2^8, 3^6, 4^4 or 8^3 placements.
pub fn small_table(random: &mut Random) -> Table {
    let (processors, most) = random.pick(&[(1, 6), (2, 8), (3, 6), (4, 4), (8, 3)]);
    let count = 1 + random.below(most);
    let spare = 1 + random.below(2);
    let mut table = crowded_table(random, processors, count, spare);
    if random.once_in(3) {
        relate_tasks(random, &mut table);
    }
    table
}

/// One to six tasks on one to three processors, of which one could often just take them all, or just not.
pub fn tiny_table(random: &mut Random) -> Table {
    let mut tasks = random_set(random);
    tasks.truncate(6);
    let mut table = free_table(tasks, 1 + random.below(3));
    restrict(random, &mut table);
    if random.once_in(6) {
        relate_tasks(random, &mut table);
    }
    table
}

fn relate_tasks(random: &mut Random, table: &mut Table) {
    let (together, apart) = (random.below(2), random.below(3));
    table.co_resident = groups(random, together, table.tasks.len());
    table.exclusive = groups(random, apart, table.tasks.len());
    add_messages(random, table);
}

/// 8 to 16 tasks on 2 to 8 processors that have room for them, with at most 2^28 placements.
pub fn medium_table(random: &mut Random) -> Table {
    loop {
        let (processors, most) = random.pick(&[(2, 16), (3, 16), (4, 14), (5, 12), (6, 10), (7, 9), (8, 9)]);
        let count = 8 + random.below(most - 7);
        let spare = 1 + random.below(4);
        let mut table = crowded_table(random, processors, count, spare);
        if random.once_in(2) {
            table.co_resident = (0..random.below(3)).map(|_| few_tasks(random, count)).collect();
            table.exclusive = (0..random.below(4)).map(|_| few_tasks(random, count)).collect();
            add_messages(random, &mut table);
        }
        if has_room(&table) {
            return table;
        }
    }
}

/// 10 to 12 tasks on three to five processors. Any four of them and most threes are late on one processor,
/// so most lists have more than a hundred conflicts.
pub fn table_with_a_long_list(random: &mut Random) -> Table {
    let count = 10 + random.below(3);
    let mut priorities: Vec<u16> = (1..=count as u16).collect();
    random.shuffle(&mut priorities);
    let task = |priority| {
        let execution = random.within(17, 30);
        Task { execution, period: 120, deadline: 60, memory: 0, priority, residence: 1 }
    };
    let tasks = priorities.into_iter().map(task).collect();
    free_table(tasks, 3 + random.below(3))
}

/// Whether all processors together have the memory and the time for all tasks. Where they have not,
/// nothing keeps the rules, and a search by task and processor takes long to say so.
fn has_room(table: &Table) -> bool {
    let limits: u32 = table.processors.iter().map(|processor| u32::from(processor.limit)).sum();
    let memory: u64 = table.processors.iter().map(|processor| u64::from(processor.memory)).sum();
    1000 * load(&table.tasks) <= limits * table.hyperperiod
        && table.tasks.iter().map(|task| u64::from(task.memory)).sum::<u64>() <= memory
}

/// Two or three tasks: wider groups leave a larger table without a placement.
fn few_tasks(random: &mut Random, count: usize) -> u32 {
    loop {
        let group = (0..3).fold(0u32, |group, _| group | 1 << random.below(count));
        if group.count_ones() >= 2 {
            return group;
        }
    }
}

/// Near to what the processors can take together, where placements are late as often as not. With more
/// to spare each task takes less.
fn crowded_table(random: &mut Random, processors: usize, count: usize, spare: usize) -> Table {
    let crowd = (count.div_ceil(processors) + spare) as u32;
    let mut table = free_table(crowded_set(random, count, crowd), processors);
    restrict(random, &mut table);
    table
}

fn restrict(random: &mut Random, table: &mut Table) {
    restrict_tasks(random, table);
    if random.once_in(4) {
        restrict_processors(random, table);
    }
}

fn restrict_tasks(random: &mut Random, table: &mut Table) {
    let all = (1 << table.processors.len()) - 1;
    for task in &mut table.tasks {
        task.memory = random.within(0, 10);
        if random.once_in(6) {
            task.residence = random.within(1, all) as u16;
        }
    }
}

fn restrict_processors(random: &mut Random, table: &mut Table) {
    for processor in &mut table.processors {
        let memory = random.pick(&[5, 10, 20, 40, u32::MAX]);
        *processor = Processor { memory, limit: random.pick(&[400, 600, 800, 1000]) };
    }
}

fn add_messages(random: &mut Random, table: &mut Table) {
    table.capacity = random.within(0, 2);
    for receiver in 1..table.tasks.len() {
        let sender = receiver - 1;
        if table.tasks[sender].period == table.tasks[receiver].period {
            let amount = random.within(1, table.tasks[sender].period);
            table.messages.push(Message { sender: sender as u8, receiver: receiver as u8, amount });
        }
    }
}
