//! One search in a process of its own: a call of the tool cannot be stopped, a process can.

use crate::time::{Time, processor_seconds};
use std::env::current_exe;
use std::ffi::OsStr;
use std::fs;
use std::path::Path;
use std::process::{Command, Stdio};
use std::time::{Duration, Instant};
use tools::comparison::searching::PROGRAMS_BUFFER;
use tools::{reader, tool};

/// What this program is called with to search one table itself.
pub const SEARCH: &str = "--search";

/// A quick search is repeated as long as this, as one alone would be timed badly.
const ENOUGH: Duration = Duration::from_millis(200);

/// What a search printed, nothing if it was stopped.
pub struct Outcome {
    pub time: Time,
    /// The head of the answer; then found or none, the mark, and how many conflicts are listed.
    pub answer: Option<(String, String)>,
}

pub fn by_tool(table: &Path, limit: u64) -> Outcome {
    let itself = current_exe().expect("the path of this program");
    by_program(&[itself.as_os_str(), SEARCH.as_ref(), table.as_os_str()], limit)
}

/// Runs a program with its arguments. What it prints on its first line is the outcome.
pub fn by_program(command: &[&OsStr], limit: u64) -> Outcome {
    outcome(Command::new("sh").args(limited(limit)).args(command), limit)
}

/// The placement is the first, so that all that ended must name it; the conflicts are free.
pub fn agree(outcomes: &[&Outcome], table: &str) {
    let placements: Vec<&String> = outcomes
        .iter()
        .filter_map(|outcome| outcome.answer.as_ref())
        .map(|(placement, _)| placement)
        .collect();
    assert!(
        placements.windows(2).all(|pair| pair[0] == pair[1]),
        "the placements of {table}: {placements:?}"
    );
}

/// The shell's limit is one of processor time, so that other work on the machine stops nothing early.
fn limited(limit: u64) -> [String; 3] {
    ["-c".to_string(), "ulimit -t $0 && exec \"$@\"".to_string(), limit.to_string()]
}

fn outcome(command: &mut Command, limit: u64) -> Outcome {
    let output = command.stderr(Stdio::inherit()).output().expect("another process");
    if output.status.code().is_none() {
        return Outcome { time: Time::Stopped(limit as f64), answer: None };
    }
    let printed = String::from_utf8(output.stdout).expect("UTF-8");
    let mut parts = printed.lines().next().unwrap_or_default().splitn(3, ' ').map(str::to_string);
    let mut next = || parts.next().expect("a time, a head and an answer in words");
    let seconds = next().parse().expect("seconds");
    Outcome { time: Time::Took(seconds), answer: Some((next(), next())) }
}

/// Prints the seconds of a search with a buffer like the program's, the head, and the answer in words.
pub fn search(path: &Path) {
    let file = fs::read(path).expect("a table");
    let tasks = reader::read(&file).expect("a table that is read").tasks.len();
    let (mut answer, mut count) = ([0; PROGRAMS_BUFFER], 0);
    let seconds = repeated(|| count = tool::search(&file, &mut answer).expect("an answer"));
    let head: Vec<String> = answer[2..2 + tasks].iter().map(u8::to_string).collect();
    let found = if answer.starts_with(b"AL") { "found" } else { "none" };
    let mark = if answer[count - 1] == 1 { "complete" } else { "cut" };
    let conflicts = (count - tasks - 5) / 6;
    println!("{seconds} {} {found}, {mark}, {conflicts} conflicts", head.join("."));
}

/// The processor time of one round. That clock may tick in thousandths of a second only, so that it is read
/// before the first round and after the last alone.
fn repeated(mut round: impl FnMut()) -> f64 {
    let (start, clock, mut rounds) = (processor_seconds(), Instant::now(), 0);
    while rounds == 0 || clock.elapsed() < ENOUGH {
        round();
        rounds += 1;
    }
    (processor_seconds() - start) / f64::from(rounds)
}
