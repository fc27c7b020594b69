//! Searches of the tool beside those of the blueprint.

use crate::blueprint::{Blueprint, FURTHER, USUAL};
use crate::instances::{Room, generated, name, public};
use crate::print_row;
use crate::process::{Outcome, agree, by_tool};
use crate::time::{Time, median, ratio, worst};
use std::path::{Path, PathBuf};

const TASKS: usize = 24;

/// What is asked of the run: the limit in seconds, and whether the blueprint runs a second time with all its steps.
pub struct Wanted {
    pub limit: u64,
    pub further_steps: bool,
}

pub fn searches(wanted: &Wanted) {
    let room = Room::new();
    let blueprint = Blueprint::compiled(&room);
    let further = if wanted.further_steps { format!("with {FURTHER}") } else { String::new() };
    print_row("instance", "answer", &["tool", "blueprint", "ratio", &further]);
    let loads = (4..=8).flat_map(|processors| generated(&room, TASKS, processors));
    let tables: Vec<PathBuf> = public().into_iter().chain(loads).collect();
    let times: Vec<Row> = tables.iter().map(|table| row(table, blueprint.as_ref(), wanted)).collect();
    summary(&times);
}

/// The tool's time, the blueprint's, and the blueprint's with all its steps.
#[derive(Clone, Copy)]
struct Row {
    tool: Time,
    usual: Option<Time>,
    further: Option<Time>,
}

fn row(table: &Path, blueprint: Option<&Blueprint>, wanted: &Wanted) -> Row {
    let all_steps = [USUAL, FURTHER].concat();
    let tool = by_tool(table, wanted.limit);
    let usual = blueprint.map(|blueprint| blueprint.search(table, USUAL, wanted.limit));
    let further = blueprint.filter(|_| wanted.further_steps);
    let further = further.map(|blueprint| blueprint.search(table, &all_steps, wanted.limit));
    let outcomes: Vec<&Outcome> =
        [Some(&tool), usual.as_ref(), further.as_ref()].into_iter().flatten().collect();
    agree(&outcomes, &name(table));
    let answer = outcomes.iter().find_map(|outcome| outcome.answer.as_ref());
    let words = answer.map_or("", |(_, words)| words);
    let time = |outcome: &Option<Outcome>| outcome.as_ref().map(|outcome| outcome.time);
    let row = Row { tool: tool.time, usual: time(&usual), further: time(&further) };
    print_times(&format!("search {}", name(table)), words, row);
    row
}

fn print_times(instance: &str, answer: &str, Row { tool, usual, further }: Row) {
    let written = |time: Option<Time>| time.map_or_else(String::new, |time| time.to_string());
    let by = usual.map_or_else(String::new, |usual| ratio(tool, usual));
    print_row(instance, answer, &[&tool.to_string(), &written(usual), &by, &written(further)]);
}

/// A search that was stopped counts as long as it ran, but for the total, in which its row has no place.
fn summary(rows: &[Row]) {
    let whole: Vec<Row> = rows.iter().copied().filter(Row::ended).collect();
    let total = |times: &[Time]| Time::Took(times.iter().map(|time| time.seconds()).sum());
    print_times("total", &format!("{} of {} ended", whole.len(), rows.len()), combined(&whole, total));
    print_times("median", "", combined(rows, median));
    print_times("worst", "", combined(rows, worst));
}

/// One time of each column.
fn combined(rows: &[Row], combine: impl Fn(&[Time]) -> Time) -> Row {
    let column = |times: Option<Vec<Time>>| times.map(|times| combine(&times));
    Row {
        tool: combine(&rows.iter().map(|row| row.tool).collect::<Vec<_>>()),
        usual: column(rows.iter().map(|row| row.usual).collect()),
        further: column(rows.iter().map(|row| row.further).collect()),
    }
}

impl Row {
    fn ended(&self) -> bool {
        [Some(self.tool), self.usual, self.further].into_iter().flatten().all(Time::ended)
    }
}
