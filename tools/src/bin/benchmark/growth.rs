//! How the time of a search grows with the number of tasks and of processors.

use crate::instances::{Room, generated};
use crate::process::by_tool;
use crate::time::{Time, median, worst};

const TASKS: [usize; 5] = [8, 12, 16, 20, 24];

pub fn growth(limit: u64) {
    let room = Room::new();
    let columns: String = TASKS.iter().map(|tasks| format!("{:>24}", format!("{tasks} tasks"))).collect();
    println!("{:<12}{columns}", "processors");
    println!("{:<12}{}", "", format!("{:>12}{:>12}", "median", "worst").repeat(TASKS.len()));
    for processors in 2..=8 {
        let cells: String = TASKS.iter().map(|&tasks| cell(&room, tasks, processors, limit)).collect();
        println!("{processors:<12}{cells}");
    }
}

/// Median and worst over the seeds.
fn cell(room: &Room, tasks: usize, processors: usize, limit: u64) -> String {
    let tables = generated(room, tasks, processors);
    let times: Vec<Time> = tables.iter().map(|table| by_tool(table, limit).time).collect();
    format!("{:>12}{:>12}", median(&times).to_string(), worst(&times).to_string())
}
