//! The example of section 4 of source document 001: 20 tasks, 4 processors, deadlines at the
//! periods. Its numbers from 0 are the file's numbers. A message's transmission time is its amount
//! and the network takes 1 per tick, which makes equation 4 of 001 and rule 106 the same.

use crate::model::{Message, Processor, Table, Task};

/// T, C, memory and priority of the tasks 0 to 19, from table 2.
const TASKS: [(u32, u32, u32, u16); 20] = [
    (36_000, 2190, 21_243, 1),
    (2000, 563, 5855, 6),
    (3000, 207, 2152, 15),
    (8000, 2187, 21_213, 3),
    (72_000, 17_690, 168_055, 7),
    (4000, 667, 6670, 8),
    (12_000, 3662, 36_253, 14),
    (3000, 269, 2743, 16),
    (2000, 231, 2263, 12),
    (72_000, 6161, 59_761, 9),
    (12_000, 846, 8206, 4),
    (36_000, 5836, 60_694, 20),
    (9000, 2103, 20_399, 10),
    (36_000, 5535, 54_243, 13),
    (18_000, 3905, 41_002, 18),
    (12_000, 1412, 14_402, 5),
    (6000, 1416, 14_301, 17),
    (6000, 752, 7369, 19),
    (2000, 538, 5487, 11),
    (4000, 1281, 12_425, 2),
];

const MEMORIES: [u32; 4] = [102_001, 280_295, 360_241, 41_617];

/// Sender, receiver and transmission time.
const MESSAGES: [(u8, u8, u32); 8] = [
    (0, 13, 600),
    (1, 8, 500),
    (2, 7, 600),
    (4, 9, 300),
    (5, 19, 800),
    (8, 18, 100),
    (10, 15, 200),
    (16, 17, 700),
];

/// Sets of tasks with the answer of the conflict check. The paper finds the first four to be
/// minimal. By hand, with the highest priority first:
/// 9 then 5: 667 + 6161 > 4000. 6, 13 then 12: 2103 + 3662 + 5535 > 9000, but 5765 and 7638 with one
/// of the two, and 13 below 6 has 9197 of 36,000. 11 then 16: 1416 + 5836 > 6000. 9 then 19:
/// 1281 + 6161 > 4000. The sets of the paper's first allocation follow: each contains one of these
/// four, but for the last, with the responses 538, 1101, 1947 and 7437 of 18, 1, 10 and 3.
pub const CONFLICTS: [(&[u32], u64); 8] = [
    (&[5, 9], 2),
    (&[6, 12, 13], 2),
    (&[11, 16], 2),
    (&[9, 19], 2),
    (&[2, 5, 7, 8, 9, 17, 19], 1),
    (&[4, 6, 12, 13], 1),
    (&[0, 11, 14, 15, 16], 1),
    (&[1, 3, 10, 18], 0),
];

pub fn mask(tasks: &[u32]) -> u32 {
    tasks.iter().fold(0, |mask, task| mask | 1 << task)
}

/// 0 must stand on 0, 1 or 2; 16 on 1 or 2; 17 on 0 or 3.
fn residence(task: usize) -> u16 {
    match task {
        0 => 0b0111,
        16 => 0b0110,
        17 => 0b1001,
        _ => 0b1111,
    }
}

pub fn table() -> Table {
    let task = |(number, &(period, execution, memory, priority)): (usize, &(u32, u32, u32, u16))| Task {
        execution,
        period,
        deadline: period,
        memory,
        priority,
        residence: residence(number),
    };
    let message = |&(sender, receiver, amount): &(u8, u8, u32)| Message { sender, receiver, amount };
    Table {
        capacity: 1,
        processors: MEMORIES.iter().map(|&memory| Processor { memory, limit: 1000 }).collect(),
        tasks: TASKS.iter().enumerate().map(task).collect(),
        co_resident: vec![mask(&[7, 17, 19])],
        exclusive: vec![mask(&[3, 11, 12])],
        messages: MESSAGES.iter().map(message).collect(),
        hyperperiod: 72_000,
    }
}

#[cfg(test)]
mod tests {
    use super::*;
    use crate::conflict::conflict_code;
    use crate::file::encode;
    use crate::reader::read;
    use crate::schedule::{members, run};

    #[test]
    fn the_table_is_read() {
        assert_eq!(read(&encode(&table())), Ok(table()));
    }

    /// By the equation, and late or not by the tick run.
    #[test]
    fn conflicts_are_as_the_paper_finds_them() {
        let table = table();
        for (tasks, answer) in CONFLICTS {
            assert_eq!(conflict_code(&encode(&table), mask(tasks)), answer, "{tasks:?}");
            assert_eq!(run(&table.tasks, mask(tasks), 2 * 72_000).late, answer > 0, "{tasks:?}");
        }
    }

    #[test]
    fn the_minimal_ones_run_in_time_without_any_one() {
        let table = table();
        for set in CONFLICTS.iter().filter(|(_, answer)| *answer == 2).map(|(tasks, _)| mask(tasks)) {
            assert!(members(set).all(|task| !run(&table.tasks, set & !(1 << task), 2 * 72_000).late));
        }
    }
}
