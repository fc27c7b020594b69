//! Placements whose judgement is worked out by hand from 01.

use super::{message, paper, processor, task};
use crate::file::encode;
use crate::generate::sets::free_table;
use crate::model::{Processor, Table, Task};

pub struct Example {
    pub what: &'static str,
    pub table: Table,
    pub placement: Vec<u8>,
    /// The number of the refusal, of the broken rule, or 0.
    pub number: u16,
    /// The place of the refusal, or what the broken rule's number concerns.
    pub concerned: usize,
    /// For a placement that is not refused.
    pub responses: Vec<u32>,
    /// Beside each response, as it is written.
    pub margins: Vec<i32>,
}

/// What is written for the margin of a task whose response would be past its period.
const BEYOND: i32 = i32::MIN;

/// Responses and margins.
type Tasks<'a> = (&'a [u32], &'a [i32]);

impl Example {
    pub fn file(&self) -> Vec<u8> {
        encode(&self.table)
    }

    /// What comes back where responses and margins are written, and the numbers that are written: 14 at 2 is
    /// 14 × 2^32 + 2 and nothing; 107 of task 1 with responses 2 and 0 and margins 1 and -1 is 6 and
    /// 107, 1, 2, 0, 1, -1.
    pub fn written(&self) -> (u64, Vec<i32>) {
        if self.responses.is_empty() {
            return (u64::from(self.number) << 32 | self.concerned as u64, Vec::new());
        }
        let answer = [self.number.into(), self.concerned as i32];
        let responses = self.responses.iter().map(|&response| response as i32);
        let written: Vec<i32> = answer.into_iter().chain(responses).chain(self.margins.clone()).collect();
        (written.len() as u64, written)
    }
}

fn example(
    what: &'static str,
    table: Table,
    placement: &[u8],
    answer: (u16, usize),
    (responses, margins): Tasks,
) -> Example {
    let ((number, concerned), placement) = (answer, placement.to_vec());
    let (responses, margins) = (responses.to_vec(), margins.to_vec());
    Example { what, table, placement, number, concerned, responses, margins }
}

pub fn all() -> Vec<Example> {
    let mut examples = refused();
    examples.extend(deadlines());
    examples.extend(late());
    examples.extend(residence_and_groups());
    examples.extend(sums());
    examples
}

/// The program's example: 1 4 4, 2 6 6 and 3 12 with this deadline, priorities falling, two
/// processors that restrict nothing.
fn three(deadline: u32) -> Table {
    free_table(vec![task(1, 4, 4, 30), task(2, 6, 6, 20), task(3, 12, deadline, 10)], 2)
}

fn refused() -> Vec<Example> {
    let refused = |what, placement: &[u8], answer| example(what, three(9), placement, answer, (&[], &[]));
    vec![
        refused("two bytes, three tasks", &[0, 0], (13, 0)),
        refused("four bytes, three tasks", &[0, 0, 1, 0], (13, 0)),
        refused("no bytes", &[], (13, 0)),
        refused("13 before 14", &[2, 2], (13, 0)),
        refused("byte 2, two processors", &[0, 0, 2], (14, 2)),
        refused("the first of two unknown", &[0, 255, 2], (14, 1)),
    ]
}

/// The program's placement of `three(9)`. The margins are 4 - 1, 6 - 3 and 9 - 3.
const APART: Tasks = (&[1, 3, 3], &[3, 3, 6]);

/// All of `three(9)` on one processor: the last would end at 10, in its period of 12 but one tick late.
const TOGETHER: Tasks = (&[1, 3, 0], &[3, 3, -1]);

fn deadlines() -> Vec<Example> {
    let alone = free_table(vec![task(1, 1_000_000, 1_000_000, 1)], 1);
    vec![
        example("the program's placement", three(9), &[0, 0, 1], (0, 0), APART),
        example("all on one", three(9), &[1, 1, 1], (107, 2), TOGETHER),
        example("all on one with D 10", three(10), &[0, 0, 0], (0, 0), (&[1, 3, 10], &[3, 3, 0])),
        // A A B B: at the deadline, which is the period.
        two("2 4 4 and 2 4 4", task(2, 4, 4, 2), task(2, 4, 4, 1), (0, 0), (&[2, 4], &[2, 0])),
        example("the greatest margin", alone, &[0], (0, 0), (&[1], &[999_999])),
    ]
}

/// Two tasks on one processor that restricts nothing.
fn two(what: &'static str, first: Task, second: Task, answer: (u16, usize), tasks: Tasks) -> Example {
    example(what, free_table(vec![first, second], 1), &[0, 0], answer, tasks)
}

/// Tasks that end at their period, which is known, and past it. In the comments are the ticks of the run, by
/// the tasks A and B.
fn late() -> Vec<Example> {
    let (half, most) = (task(2, 4, 4, 2), task(999_999, 1_000_000, 1_000_000, 2));
    let (late, first_late, overfull) = ((107, 1), (107, 0), (105, 0));
    vec![
        // A A B B A A B: B ends at 7, one tick past its period.
        two("2 4 4 above 3 6 6", half, task(3, 6, 6, 1), late, (&[2, 0], &[2, BEYOND])),
        // B B B A A: A ends at 5, one tick past its period.
        two("3 6 6 above 2 4 4", task(2, 4, 4, 1), task(3, 6, 6, 2), first_late, (&[0, 3], &[BEYOND, 3])),
        // The same 7, now at the period, one tick later than the deadline.
        two("2 4 4 above 3 7 6", half, task(3, 7, 6, 1), late, (&[2, 0], &[2, -1])),
        // A A B B: B ends at 4, at its period and twice as late as it may be.
        two("2 4 4 above 2 4 2", half, task(2, 4, 2, 1), late, (&[2, 0], &[2, -2])),
        // A A B B A A B B: B ends at 8, in its period but four ticks late.
        two("2 4 4 above 4 9 4", half, task(4, 9, 4, 1), late, (&[2, 0], &[2, -4])),
        // A A A B A A A B: B ends at 8, at the end of its second period. The load is 5/4.
        two("3 4 4 above 2 4 4", task(3, 4, 4, 2), task(2, 4, 4, 1), overfull, (&[3, 0], &[1, BEYOND])),
        // A takes every tick, and B never gets one.
        two("4 4 4 above 1 8 8", task(4, 4, 4, 2), task(1, 8, 8, 1), overfull, (&[4, 0], &[0, BEYOND])),
        // B gets the last tick of its period, and ought to have had the first: 1 - 1,000,000.
        two("the least margin", most, task(1, 1_000_000, 1, 1), late, (&[999_999, 0], &[1, -999_999])),
        // B gets the last tick of each period, so that its second ends at 2,000,000.
        two("one tick too many", most, task(2, 1_000_000, 2, 1), overfull, (&[999_999, 0], &[1, BEYOND])),
    ]
}

fn residence_and_groups() -> Vec<Example> {
    let mut at_home = three(9);
    at_home.tasks[1].residence = 1;
    at_home.tasks[2].residence = 1;
    let grouped = |co_resident: &[u32], exclusive: &[u32]| Table {
        co_resident: co_resident.to_vec(),
        exclusive: exclusive.to_vec(),
        ..three(9)
    };
    let pairs = [0b011, 0b110];
    vec![
        example("two tasks out of residence", at_home.clone(), &[1, 1, 1], (101, 1), TOGETHER),
        example("the last out of residence", at_home, &[0, 0, 1], (101, 2), APART),
        example("the second group parted", grouped(&pairs, &[]), &[0, 0, 1], (102, 1), APART),
        example("both groups parted", grouped(&pairs, &[]), &[0, 1, 0], (102, 0), (&[1, 2, 4], &[3, 4, 5])),
        example("a pair that must part", grouped(&[], &[0b101, 0b011]), &[0, 0, 1], (103, 1), APART),
        example(
            "three for two processors",
            grouped(&[], &[0b111]),
            &[0, 1, 1],
            (103, 0),
            (&[1, 2, 5], &[3, 4, 4]),
        ),
        example("102 before 103", grouped(&[0b101], &[0b011]), &[0, 0, 1], (102, 0), APART),
    ]
}

/// 104 to 106, at their boundaries.
fn sums() -> Vec<Example> {
    let memories = |last: u32| {
        let tasks = vec![Task { memory: 60, ..task(1, 4, 4, 3) }, Task { memory: last, ..task(1, 4, 4, 2) }];
        Table { processors: vec![processor(100, 1000); 2], ..free_table(tasks, 2) }
    };
    let limited = |limit: u16| {
        let first = Processor { memory: 100, limit };
        Table { processors: vec![first, processor(100, 1000)], ..three(9) }
    };
    let network = |last: u32, capacity: u32| Table {
        capacity,
        messages: vec![message(0, 1, 6), message(1, 0, last)],
        ..free_table(vec![task(1, 12, 12, 3), task(1, 12, 12, 2)], 2)
    };
    let heavy = Table { capacity: 0, ..network(6, 0) };
    vec![
        example("60 + 40 of 100", memories(40), &[1, 1], (0, 0), (&[1, 2], &[3, 2])),
        example("60 + 41 of 100", memories(41), &[1, 1], (104, 1), (&[1, 2], &[3, 2])),
        example("60 and 41 apart", memories(41), &[0, 1], (0, 0), (&[1, 1], &[3, 3])),
        example("7/12 of 584", limited(584), &[0, 0, 1], (0, 0), APART),
        example("7/12 of 583", limited(583), &[0, 0, 1], (105, 0), APART),
        example("105 before 107", limited(583), &[0, 0, 0], (105, 0), TOGETHER),
        example("6 and 6 in 12", network(6, 1), &[0, 1], (0, 0), (&[1, 1], &[11, 11])),
        example("6 and 7 in 12", network(7, 1), &[0, 1], (106, 0), (&[1, 1], &[11, 11])),
        example("nothing to carry", heavy.clone(), &[1, 1], (0, 0), (&[1, 2], &[11, 10])),
        example("a network of capacity 0", heavy, &[1, 0], (106, 0), (&[1, 1], &[11, 11])),
    ]
}

/// The first allocation of the paper, which keeps the placement rules, and its late tasks. The paper
/// names 5, 12, 16 and 19, but 15 is late too: with 11, 14 and 16 above it,
/// 1412 + 5836 + 3905 + 1416 = 12,569 > 12,000.
pub fn of_the_paper() -> (Vec<u8>, [usize; 5]) {
    let sets: [&[usize]; 4] =
        [&[2, 5, 7, 8, 9, 17, 19], &[4, 6, 12, 13], &[0, 11, 14, 15, 16], &[1, 3, 10, 18]];
    let mut placement = vec![0; paper::table().tasks.len()];
    for (processor, set) in sets.iter().enumerate() {
        set.iter().for_each(|&task| placement[task] = processor as u8);
    }
    (placement, [5, 12, 15, 16, 19])
}

#[cfg(test)]
mod tests {
    use super::*;
    use crate::judge::{Rule, judge, judge_number};
    use crate::margin::Margin;
    use crate::model::MOST_TASKS;

    /// With 0 in the places beyond the tasks.
    fn in_all_places<N: Copy + Default>(numbers: &[N]) -> [N; MOST_TASKS] {
        let mut all = [N::default(); MOST_TASKS];
        all[..numbers.len()].copy_from_slice(numbers);
        all
    }

    #[test]
    fn the_judge_agrees_with_every_example() {
        for example in all() {
            let (file, what) = (example.file(), example.what);
            assert_eq!(judge_number(&file, &example.placement), example.number, "{what}");
            match judge(&file, &example.placement) {
                Err(refusal) => assert_eq!(refusal.place, example.concerned, "{what}"),
                Ok(judgement) => {
                    assert_eq!(judgement.broken.map_or(0, |(_, number)| number), example.concerned, "{what}");
                    assert_eq!(judgement.responses, in_all_places(&example.responses), "{what}");
                    let margins = judgement.margins.map(Margin::number);
                    assert_eq!(margins, in_all_places(&example.margins), "{what}");
                }
            }
        }
    }

    #[test]
    fn the_judge_agrees_with_the_paper() {
        let (placement, late) = of_the_paper();
        let judgement = judge(&encode(&paper::table()), &placement).expect("a placement to be judged");
        assert_eq!(judgement.broken, Some((Rule::Deadline, 5)));
        let zero = |&task: &usize| judgement.responses[task] == 0;
        assert_eq!((0..20).filter(zero).collect::<Vec<_>>(), late);
    }
}
