//! What each step of the blueprint gains: the usual steps, each of them left out in turn, and the further ones added.

use crate::blueprint::{Blueprint, FURTHER, USUAL};
use crate::instances::{Room, name, public};
use crate::process::{Outcome, agree};
use crate::time::{Time, total};
use std::path::Path;

/// The head of a column, and the steps that are taken in it.
type Column = (String, String);

pub fn steps(limit: u64) {
    let room = Room::new();
    let blueprint = Blueprint::compiled(&room).expect("the blueprint");
    let columns = columns();
    print_row("instance", columns.iter().map(|(head, _)| head.clone()));
    let row = |table: &Path| times(&blueprint, &columns, table, limit);
    let rows: Vec<Vec<Time>> = public().iter().map(|table| row(table)).collect();
    let of_column = |number: usize| rows.iter().map(|row| row[number]).collect::<Vec<_>>();
    print_row("total", (0..columns.len()).map(|number| total(&of_column(number)).to_string()));
}

fn columns() -> Vec<Column> {
    let without = |step: char| (format!("without {step}"), USUAL.replace(step, ""));
    let with = |step: char| (format!("with {step}"), format!("{USUAL}{step}"));
    let usual = (USUAL.to_string(), USUAL.to_string());
    let all = (format!("with {FURTHER}"), [USUAL, FURTHER].concat());
    [usual]
        .into_iter()
        .chain(USUAL.chars().map(without))
        .chain(FURTHER.chars().map(with))
        .chain([all])
        .collect()
}

/// Searches a table with the steps of each column, and prints the row.
fn times(blueprint: &Blueprint, columns: &[Column], table: &Path, limit: u64) -> Vec<Time> {
    let search = |(_, steps): &Column| blueprint.search(table, steps, limit);
    let outcomes: Vec<Outcome> = columns.iter().map(search).collect();
    agree(&outcomes.iter().collect::<Vec<_>>(), &name(table));
    let times: Vec<Time> = outcomes.iter().map(|outcome| outcome.time).collect();
    print_row(&name(table), times.iter().map(Time::to_string));
    times
}

fn print_row(instance: &str, cells: impl Iterator<Item = String>) {
    let cells: String = cells.map(|cell| format!(" {cell:>10}")).collect();
    println!("{instance:<24}{cells}");
}
