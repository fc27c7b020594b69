//! Tables with sets of their tasks that are late, in time, or have unknown tasks.

use super::sets::{crowded_set, free_table, random_set};
use super::tables::{Shape, table};
use crate::conflict::minimal_part;
use crate::model::Table;
use crate::random::Random;
use crate::schedule::late;

/// Mostly tables in which some of the sets are late; now and then one at the limits of a file, where the
/// equation can take a million rounds.
pub fn table_of_sets(random: &mut Random, round: usize) -> Table {
    if round % 1000 == 999 {
        let shape = Shape::random(random);
        return table(random, shape);
    }
    let tasks = match random.below(2) {
        0 => random_set(random),
        _ => {
            let (count, crowd) = (2 + random.below(23), random.within(2, 8));
            crowded_set(random, count, crowd)
        }
    };
    free_table(tasks, 1)
}

/// Some twenty sets: none and one task, all, unknown ones, few, any, and a minimal late set with a task more and
/// a task less.
pub fn masks(random: &mut Random, table: &Table) -> Vec<u32> {
    let all = (1 << table.tasks.len()) - 1;
    let mut masks = vec![0, 1, all, all + 1, all | 1 << 31, u32::MAX];
    for _ in 0..8 {
        masks.push(few_tasks(random, table));
        masks.push(random.draw() as u32 & all);
    }
    let minimal = minimal_part(all, &|set| late(&table.tasks, set));
    let with_another = minimal | 1 << random.below(table.tasks.len());
    masks.extend([minimal, with_another, minimal & minimal.wrapping_sub(1)]);
    masks
}

fn few_tasks(random: &mut Random, table: &Table) -> u32 {
    let count = 2 + random.below(3);
    (0..count).fold(0, |mask, _| mask | 1 << random.below(table.tasks.len()))
}
