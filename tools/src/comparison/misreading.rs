//! Ways in which a tool could misread a table, or what late, a margin or a rounded load means. A comparison
//! must notice each.

use crate::generate::sets::load;
use crate::judge::{Placed, RULES, Rule, judge_tasks};
use crate::model::{Table, Task, hyperperiod};
use crate::reader::read;
use crate::rounding::nearest_thousandth;
use crate::schedule::{Lateness, late, members};
use crate::search::enumerated::next_placement;
use std::iter::successors;

type Misreading = (&'static str, fn(&mut Table));

pub const MISREADINGS: [Misreading; 8] = [
    ("last co-residence overlooked", |table| drop_last(&mut table.co_resident)),
    ("last exclusion overlooked", |table| drop_last(&mut table.exclusive)),
    ("last message overlooked", |table| drop_last(&mut table.messages)),
    ("residence of the last task overlooked", |table| {
        table.tasks.last_mut().expect("a task").residence = (1 << table.processors.len()) - 1;
    }),
    ("memory one more", |table| {
        let each = table.processors.iter_mut();
        each.for_each(|processor| processor.memory = processor.memory.saturating_add(1));
    }),
    ("capacity one more", |table| table.capacity = table.capacity.saturating_add(1)),
    ("deadlines at the periods", |table| {
        table.tasks.iter_mut().for_each(|task| task.deadline = task.period);
    }),
    ("priorities the other way", |table| {
        table.tasks.iter_mut().for_each(|task| task.priority = !task.priority);
    }),
];

fn drop_last<T>(records: &mut Vec<T>) {
    records.pop();
}

/// Among them two of 01's "Misreadings to shut out".
pub const WRONG_LATENESS: [(&str, Lateness); 5] = [
    ("utilisation at most 1 taken as in time", |tasks, set| {
        let part: Vec<Task> = members(set).map(|task| tasks[task]).collect();
        load(&part) > hyperperiod(&part)
    }),
    ("a release at the very tick of the response counted", |tasks, set| {
        unsolved(tasks, set, |time, period| time / period + 1)
    }),
    ("a release at the last tick before the response overlooked", |tasks, set| {
        unsolved(tasks, set, |time, period| (time - 1).div_ceil(period))
    }),
    ("one job of each task of higher priority counted", |tasks, set| unsolved(tasks, set, |_, _| 1)),
    ("one tick after the deadline taken as in time", |tasks, set| {
        let later = |task: &Task| Task { deadline: task.deadline + 1, ..*task };
        late(&tasks.iter().map(later).collect::<Vec<_>>(), set)
    }),
];

/// Whether the equation with another count of jobs, by time and period, is solved up to no deadline.
fn unsolved(tasks: &[Task], set: u32, jobs: impl Fn(u32, u32) -> u32) -> bool {
    let solved = |own: &Task| {
        let higher = || members(set).map(|task| &tasks[task]).filter(|other| other.priority > own.priority);
        let demand = |time| higher().map(|other| jobs(time, other.period) * other.execution).sum::<u32>();
        (1..=own.deadline).any(|time| own.execution + demand(time) == time)
    };
    members(set).any(|task| !solved(&tasks[task]))
}

/// What is written of a placement that is not refused.
pub struct Written<'a> {
    placed: Placed<'a>,
    number: i32,
    responses: &'a mut [i32],
    margins: &'a mut [i32],
}

const BEYOND: i32 = i32::MIN;

pub type WrongMargins = (&'static str, fn(&mut Written));

pub const WRONG_MARGINS: [WrongMargins; 14] = [
    ("the sign turned round", |written| written.change(i32::wrapping_neg)),
    ("known one tick past the period", |written| written.by_periods(|period| period + 1)),
    ("beyond at the period", |written| written.by_periods(|period| 1.max(period - 1))),
    ("the first margin for all", |written| written.margins.fill(written.margins[0])),
    ("0 for late tasks", |written| {
        written.change(|margin| if margin == BEYOND { BEYOND } else { margin.max(0) })
    }),
    ("beyond for late tasks", |written| written.change(|margin| if margin < 0 { BEYOND } else { margin })),
    ("beyond for a margin of 0", |written| {
        written.change(|margin| if margin == 0 { BEYOND } else { margin })
    }),
    ("none beside a broken placement rule", |written| {
        if (101..107).contains(&written.number) {
            written.margins.fill(0);
        }
    }),
    ("beyond beside a broken placement rule", |written| {
        if (101..107).contains(&written.number) {
            written.margins.fill(BEYOND);
        }
    }),
    ("beyond written as 0", |written| written.change(|margin| if margin == BEYOND { 0 } else { margin })),
    ("beyond written as a large number", |written| written.change(|margin| margin.max(-1_000_000))),
    ("from the response, with 0 for late tasks", |written| {
        for (task, margin) in written.placed.table.tasks.iter().zip(written.margins.iter_mut()) {
            *margin = task.deadline as i32;
        }
        written.margins.iter_mut().zip(written.responses.iter()).for_each(|(margin, own)| *margin -= own);
    }),
    ("the response of a late task written", |written| {
        let deadlines = written.placed.table.tasks.iter().map(|task| task.deadline as i32);
        for ((deadline, margin), response) in
            deadlines.zip(written.margins.iter()).zip(written.responses.iter_mut())
        {
            *response = if *margin == BEYOND { 0 } else { deadline - margin };
        }
    }),
    ("margins before responses", |written| written.margins.swap_with_slice(written.responses)),
];

impl Written<'_> {
    fn change(&mut self, change: fn(i32) -> i32) {
        self.margins.iter_mut().for_each(|margin| *margin = change(*margin));
    }

    /// The margin of each task if its own period were another one: that moves only the line between known and
    /// beyond.
    fn by_periods(&mut self, change: fn(u32) -> u32) {
        for (number, margin) in self.margins.iter_mut().enumerate() {
            let mut table = self.placed.table.clone();
            table.tasks[number].period = change(table.tasks[number].period);
            *margin = Placed { table: &table, ..self.placed }.margins()[number].number();
        }
    }
}

/// Writes the right judgement, changed.
pub fn misjudged(change: fn(&mut Written), file: &[u8], placement: &[u8], out: &mut [i32]) -> u64 {
    let code = judge_tasks(file, placement, out);
    if let (0, Ok(table)) = (code >> 32, read(file)) {
        let (answer, tasks) = out[..code as usize].split_at_mut(2);
        let (responses, margins) = tasks.split_at_mut(placement.len());
        change(&mut Written {
            placed: Placed { table: &table, placement },
            number: answer[0],
            responses,
            margins,
        });
    }
    code
}

/// A load in thousandths of the hyperperiod.
pub type Rounding = fn(u64, u64) -> u64;

pub const WRONG_ROUNDINGS: [(&str, Rounding); 7] = [
    ("rounded up", |load, hyperperiod| (1000 * load).div_ceil(hyperperiod)),
    ("rounded down, as before the request", |load, hyperperiod| 1000 * load / hyperperiod),
    ("a half always up", half_up),
    ("a half always down", half_down),
    ("a half to the odd one", |load, hyperperiod| match half_up(load, hyperperiod) {
        odd if odd % 2 == 1 => odd,
        _ => half_down(load, hyperperiod),
    }),
    ("by the next digit alone", |load, hyperperiod| nearest_thousandth(10_000 * load / hyperperiod, 10_000)),
    ("in single precision", |load, hyperperiod| {
        (1000.0 * load as f32 / hyperperiod as f32).round_ties_even() as u64
    }),
];

fn half_up(load: u64, hyperperiod: u64) -> u64 {
    (2000 * load + hyperperiod) / (2 * hyperperiod)
}

fn half_down(load: u64, hyperperiod: u64) -> u64 {
    (2000 * load).saturating_sub(hyperperiod).div_ceil(2 * hyperperiod)
}

/// The first placement if the limits are tested on the rounded loads, by trying all.
pub fn first_by_rounded_loads(table: &Table) -> Option<Vec<u8>> {
    let processors = table.processors.len();
    let keeps = |placement: &Vec<u8>| {
        let placed = Placed { table, placement };
        let rounded = |on| nearest_thousandth(placed.load(on), u64::from(table.hyperperiod));
        RULES.into_iter().filter(|&rule| rule != Rule::Utilisation).all(|rule| placed.keeps(rule))
            && (0..processors).all(|on| rounded(on) <= u64::from(table.processors[on].limit))
    };
    let next = |placement: &Vec<u8>| next_placement(placement.clone(), processors);
    successors(Some(vec![0; table.tasks.len()]), next).find(keeps)
}
