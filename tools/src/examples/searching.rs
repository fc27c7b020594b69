//! Searches whose right answers are worked out by hand from 01 "The search answer".

use super::{message, processor, task};
use crate::file::encode;
use crate::generate::sets::free_table;
use crate::model::{Table, Task};

pub struct Example {
    pub what: &'static str,
    pub table: Table,
    /// Bytes in the buffer.
    pub buffer: usize,
    /// What the search may write at its start: more than one answer where the list is free.
    pub answers: Vec<Vec<u8>>,
}

impl Example {
    pub fn file(&self) -> Vec<u8> {
        encode(&self.table)
    }
}

fn example(what: &'static str, table: Table, buffer: usize, answer: &[u8]) -> Example {
    either(what, table, buffer, &[answer])
}

fn either(what: &'static str, table: Table, buffer: usize, answers: &[&[u8]]) -> Example {
    Example { what, table, buffer, answers: answers.iter().map(|answer| answer.to_vec()).collect() }
}

pub fn all() -> Vec<Example> {
    let mut examples = of_the_program();
    examples.extend(alone_and_together());
    examples.extend(lists());
    examples.extend(nothing_to_cover());
    examples.extend(rules());
    examples.extend(at_the_limits());
    examples
}

/// The program's example. Only 0 0 0 comes before 0 0 1, and all three together are late while any
/// two are not: the list has this conflict if there is a place for it.
pub fn three() -> Table {
    let tasks = vec![task(1, 4, 4, 30), task(2, 6, 6, 20), task(3, 12, 9, 10)];
    Table { capacity: 5, processors: vec![processor(100, 1000); 2], ..free_table(tasks, 2) }
}

/// What the program prints for it, whole (01 "The program", with the margins: 4 - 1, 6 - 3, 9 - 3).
pub const LISTING: &str = "\
found
task 0 on 0 response 1 deadline 4 margin 3
task 1 on 0 response 3 deadline 6 margin 3
task 2 on 1 response 3 deadline 9 margin 6
load 0 583
load 1 250
conflict 0 1 2
complete
";

fn of_the_program() -> Vec<Example> {
    let listed = b"AL\0\0\x01NG\x07\0\0\0EN\x01";
    vec![
        example("the program's example", three(), 16_384, listed),
        example("a full list that is complete", three(), 14, listed),
        example("a byte short of a place", three(), 13, b"AL\0\0\x01EN\0"),
        example("no place", three(), 8, b"AL\0\0\x01EN\0"),
    ]
}

/// 2 4 4 above 3 6 6, which are late together with a load of 1.
fn late_pair(processors: usize) -> Table {
    free_table(vec![task(2, 4, 4, 2), task(3, 6, 6, 1)], processors)
}

/// Two tasks that are in time together.
fn light_pair(processors: usize) -> Table {
    free_table(vec![task(1, 4, 4, 2), task(1, 4, 4, 1)], processors)
}

fn alone_and_together() -> Vec<Example> {
    // Alone the task of higher priority, which comes second, is in time; the first one has 3 + 2 × 2 > 6.
    let lower_first = |processors| free_table(vec![task(3, 6, 6, 1), task(2, 4, 4, 2)], processors);
    // Responses 1, 3 and 10.
    let in_time = free_table(vec![task(1, 4, 4, 30), task(2, 6, 6, 20), task(3, 12, 10, 10)], 2);
    let mut on_the_second = in_time.clone();
    on_the_second.tasks.iter_mut().for_each(|task| task.residence = 2);
    vec![
        example("one task on one processor", free_table(vec![task(4, 4, 4, 1)], 1), 6, b"AL\0EN\x01"),
        example("two in time on one processor", light_pair(1), 100, b"AL\0\0EN\x01"),
        example("two late on one processor", late_pair(1), 13, b"NO\xFF\xFFNG\x03\0\0\0EN\x01"),
        example("two late on one, no place", late_pair(1), 7, b"NO\xFF\xFFEN\0"),
        example("two late, apart", late_pair(2), 100, b"AL\0\x01NG\x03\0\0\0EN\x01"),
        example("lower priority first", lower_first(2), 100, b"AL\0\x01NG\x03\0\0\0EN\x01"),
        example("lower priority first, one processor", lower_first(1), 13, b"NO\xFF\xFFNG\x03\0\0\0EN\x01"),
        example("all on the first", in_time, 8, b"AL\0\0\0EN\x01"),
        example("all on the second", on_the_second, 8, b"AL\x01\x01\x01EN\x01"),
    ]
}

/// Task 0 has the lowest priority and D 2, so it is late beside either of the others: 2 + 2 > 2. These
/// fill one processor together in time, with responses 2 and 4. So 0 1 1 is the first placement. Before
/// it 0 0 0 is too much load for rule 105, 0 0 1 holds the conflict 0 1 and 0 1 0 the conflict 0 2.
fn late_beside_two() -> Table {
    free_table(vec![task(2, 4, 2, 1), task(2, 4, 4, 3), task(2, 4, 4, 2)], 2)
}

fn lists() -> Vec<Example> {
    let one = [b"AL\0\x01\x01NG\x03\0\0\0EN\0".as_slice(), b"AL\0\x01\x01NG\x05\0\0\0EN\0"];
    let both = [
        b"AL\0\x01\x01NG\x03\0\0\0NG\x05\0\0\0EN\x01".as_slice(),
        b"AL\0\x01\x01NG\x05\0\0\0NG\x03\0\0\0EN\x01",
    ];
    // With task 2 at home on 1, only 0 0 1 keeps residence before 0 1 1. The conflict 0 2 is held on 1
    // alone, behind the answer.
    let mut behind = late_beside_two();
    behind.tasks[2].residence = 2;
    // Task 1 is late beside 2, which goes before it: 1 + 1 > 1. Task 0 goes after both and is in time.
    let bystander = free_table(vec![task(1, 8, 8, 1), task(1, 4, 1, 2), task(1, 4, 4, 3)], 1);
    vec![
        example("a task that has no part in it", bystander, 20, b"NO\xFF\xFF\xFFNG\x06\0\0\0EN\x01"),
        example("two conflicts, no place", late_beside_two(), 8, b"AL\0\x01\x01EN\0"),
        either("two conflicts, one place: cut", late_beside_two(), 14, &one),
        either("a byte short of two places", late_beside_two(), 19, &one),
        either("two conflicts in two places: complete", late_beside_two(), 20, &both),
        either("two conflicts, many places", late_beside_two(), 100, &both),
        example("a conflict behind the answer", behind, 100, b"AL\0\x01\x01NG\x03\0\0\0EN\x01"),
    ]
}

/// No earlier placement keeps the rules, so any list is complete.
fn nothing_to_cover() -> Vec<Example> {
    let mut at_home = late_pair(2);
    at_home.tasks[0].residence = 2;
    let small = Table { processors: vec![processor(19, 1000)], ..light_pair(1) };
    // 0 0 is late and breaks no rule yet, but task 2 must stand with 1 and away from 0. All earlier
    // placements of the three keep residence, so the conflicts 0 1 and 0 2 may be listed.
    let stuck = Table { co_resident: vec![0b110], exclusive: vec![0b101], ..late_beside_two() };
    let any = [
        b"AL\0\x01\x01EN\x01".as_slice(),
        b"AL\0\x01\x01NG\x03\0\0\0EN\x01",
        b"AL\0\x01\x01NG\x05\0\0\0EN\x01",
    ];
    vec![
        // 20 of memory on 19.
        example("too little memory, no place", small, 7, b"NO\xFF\xFFEN\x01"),
        // 0 0 and 0 1 are out of residence, so they can hold no conflict.
        example("the first out of residence", at_home, 100, b"AL\x01\0EN\x01"),
        example("a late part that cannot be completed, no place", stuck.clone(), 8, any[0]),
        either("a late part that cannot be completed", stuck, 14, &any),
    ]
}

/// Rules 102 to 106 decide where the tasks stand.
fn rules() -> Vec<Example> {
    let apart = Table { exclusive: vec![3], ..light_pair(2) };
    let together = Table { co_resident: vec![3], ..late_pair(2) };
    let memory = Table { processors: vec![processor(19, 1000); 2], ..light_pair(2) };
    // A load of 1/2.
    let limited = |limit| Table { processors: vec![processor(20, limit); 2], ..light_pair(2) };
    // Late together: 2 + 2 > 2. Apart, the message takes 5 of 4 × the capacity.
    let talking = |capacity| Table {
        capacity,
        messages: vec![message(0, 1, 5)],
        ..free_table(vec![task(2, 4, 2, 1), task(2, 4, 4, 2)], 2)
    };
    vec![
        example("two that must part", apart, 7, b"AL\0\x01EN\x01"),
        example("two late that must not part", together, 100, b"NO\xFF\xFFNG\x03\0\0\0EN\x01"),
        example("memory for one", memory, 7, b"AL\0\x01EN\x01"),
        example("a load within the limit", limited(500), 7, b"AL\0\0EN\x01"),
        example("a load above the limit", limited(499), 7, b"AL\0\x01EN\x01"),
        example("a network that carries the message", talking(2), 100, b"AL\0\x01NG\x03\0\0\0EN\x01"),
        example("a network that does not", talking(1), 100, b"NO\xFF\xFFNG\x03\0\0\0EN\x01"),
        example("a network that does not, no place", talking(1), 7, b"NO\xFF\xFFEN\0"),
    ]
}

fn at_the_limits() -> Vec<Example> {
    let equal = |times: fn(u16) -> Task, processors| free_table((0..24).map(times).collect(), processors);
    // The task of the lowest priority has a response of 24.
    let full = equal(|number| task(1, 24, 24, number), 1);
    // Three are in time with responses 1, 2 and 3; a fourth, for whose load there is room, is late.
    let threes = equal(|number| task(1, 6, 3, number), 8);
    let in_threes: Vec<u8> = (0..24).map(|number| number / 3).collect();
    let mut at_the_last = free_table(vec![task(4, 4, 4, 1)], 8);
    at_the_last.tasks[0].residence = 1 << 7;
    vec![
        example("24 tasks on one processor", full, 29, &[b"AL", [0; 24].as_slice(), b"EN\x01"].concat()),
        example("24 tasks on 8 processors", threes, 29, &[b"AL", in_threes.as_slice(), b"EN\0"].concat()),
        example("one task on the last of 8", at_the_last, 100, b"AL\x07EN\x01"),
    ]
}

#[cfg(test)]
mod tests {
    use super::*;
    use crate::comparison::searching::{Search, search_all, search_pruned};
    use crate::schedule::runs_late;
    use crate::search::Truth;
    use crate::search::checker::Checker;
    use crate::search::enumerated::Enumerated;
    use crate::search::pruned::Pruned;

    fn agrees(example: &Example, search: Search, truth: &dyn Truth) {
        let before = vec![9; example.buffer];
        let mut buffer = before.clone();
        let count = search(&example.file(), &mut buffer).expect("an answer");
        assert!(example.answers.contains(&buffer[..count].to_vec()), "{}", example.what);
        for answer in &example.answers {
            let after = [answer, &before[answer.len()..]].concat();
            let checked = Checker::new(truth).check(&before, &after, answer.len());
            assert!(checked.is_ok(), "{}: {checked:?}", example.what);
        }
    }

    #[test]
    fn the_independent_searches_agree_with_every_example() {
        for example in all() {
            agrees(&example, &search_pruned, &Pruned::of(&example.table));
            if example.table.tasks.len() < 24 {
                agrees(&example, &search_all, &Enumerated::of(&example.table, runs_late));
            }
        }
    }
}
