//! What the program prints: 01 "The program", worked out from a table and its search answer.

use crate::comparison::searching::{PROGRAMS_BUFFER, Search};
use crate::judge::Placed;
use crate::margin::Margin;
use crate::model::{CAUSES, Refusal, Table};
use crate::reader::read;
use crate::rounding::nearest_thousandth;
use crate::schedule::members;
use crate::search::checker::parse_list;
use crate::search::{head, with_list};
use std::fmt;

#[derive(Clone, Debug, PartialEq, Eq)]
pub enum Listing {
    Refused(Refusal),
    Searched {
        /// None where there is no placement.
        found: Option<Found>,
        /// The sets of tasks in the buffer's order.
        conflicts: Vec<u32>,
        complete: bool,
    },
}

#[derive(Clone, Debug, PartialEq, Eq)]
pub struct Found {
    pub tasks: Vec<Stand>,
    /// For each processor, to the nearest thousandth of H.
    pub loads: Vec<u64>,
}

/// Where a task stands, and how it fares there.
#[derive(Clone, Debug, PartialEq, Eq)]
pub struct Stand {
    pub processor: usize,
    pub response: u32,
    pub deadline: u32,
    pub margin: Margin,
}

/// What the program prints for this file, if this is its search.
pub fn listing(file: &[u8], search: Search) -> Listing {
    let mut answer = [0; PROGRAMS_BUFFER];
    match search(file, &mut answer) {
        Err(refusal) => Listing::Refused(refusal),
        Ok(count) => of_answer(&read(file).expect("a file that is searched is read"), &answer[..count]),
    }
}

impl Listing {
    /// The search answer for which this is printed; a refusal has none, nor has a processor that is no byte.
    pub fn answer(&self, table: &Table) -> Option<Vec<u8>> {
        let Listing::Searched { found, conflicts, complete } = self else {
            return None;
        };
        let placement = match found {
            Some(found) => Some(found.placement()?),
            None => None,
        };
        Some(with_list(head(table, placement.as_deref()), conflicts, *complete))
    }
}

impl Found {
    /// The processor of each task; None if one is no byte.
    pub fn placement(&self) -> Option<Vec<u8>> {
        self.tasks.iter().map(|stand| u8::try_from(stand.processor).ok()).collect()
    }
}

/// The answer is one of the table's: of the right layout, and with a placement of every task.
pub fn of_answer(table: &Table, answer: &[u8]) -> Listing {
    let (head, list) = answer.split_at(2 + table.tasks.len());
    let list = parse_list(list).expect("an answer's layout");
    let found = head.strip_prefix(b"AL").map(|placement| found(&Placed { table, placement }));
    Listing::Searched { found, conflicts: list.conflicts, complete: list.complete }
}

fn found(placed: &Placed) -> Found {
    let (table, margins) = (placed.table, placed.margins());
    let stand = |(task, &processor): (usize, &u8)| Stand {
        processor: usize::from(processor),
        response: placed.response(task),
        deadline: table.tasks[task].deadline,
        margin: margins[task],
    };
    let thousandths = |processor| nearest_thousandth(placed.load(processor), u64::from(table.hyperperiod));
    Found {
        tasks: placed.placement.iter().enumerate().map(stand).collect(),
        loads: (0..table.processors.len()).map(thousandths).collect(),
    }
}

impl fmt::Display for Listing {
    fn fmt(&self, out: &mut fmt::Formatter) -> fmt::Result {
        let (found, conflicts, complete) = match self {
            Listing::Refused(refusal) => {
                return writeln!(out, "refused {} {}", refusal.cause as u8, refusal.place);
            }
            Listing::Searched { found, conflicts, complete } => (found, conflicts, complete),
        };
        match found {
            Some(found) => write!(out, "found\n{found}")?,
            None => writeln!(out, "none")?,
        }
        for &conflict in conflicts {
            let tasks: Vec<String> = members(conflict).map(|task| task.to_string()).collect();
            writeln!(out, "conflict {}", tasks.join(" "))?;
        }
        writeln!(out, "{}", if *complete { "complete" } else { "cut" })
    }
}

impl fmt::Display for Found {
    fn fmt(&self, out: &mut fmt::Formatter) -> fmt::Result {
        for (task, Stand { processor, response, deadline, margin }) in self.tasks.iter().enumerate() {
            write!(out, "task {task} on {processor} ")?;
            writeln!(out, "response {response} deadline {deadline} margin {margin}")?;
        }
        for (processor, load) in self.loads.iter().enumerate() {
            writeln!(out, "load {processor} {load}")?;
        }
        Ok(())
    }
}

/// Takes a listing apart; None if it is not exactly as the program prints one.
pub fn parse(text: &str) -> Option<Listing> {
    let lines: Vec<Vec<&str>> = text.lines().map(|line| line.split(' ').collect()).collect();
    let listing = match lines.split_first()? {
        (first, []) if first[0] == "refused" => refused(first)?,
        (first, rest) => searched(first, rest)?,
    };
    (listing.to_string() == text).then_some(listing)
}

fn refused(words: &[&str]) -> Option<Listing> {
    let number: u8 = words.get(1)?.parse().ok()?;
    let cause = CAUSES.into_iter().find(|&cause| cause as u8 == number)?;
    Some(Listing::Refused(Refusal { cause, place: words.get(2)?.parse().ok()? }))
}

fn searched(first: &[&str], rest: &[Vec<&str>]) -> Option<Listing> {
    let (last, lines) = rest.split_last()?;
    let mut found = Found { tasks: Vec::new(), loads: Vec::new() };
    let mut conflicts = Vec::new();
    for line in lines {
        match line[..] {
            ["task", _, "on", on, "response", response, "deadline", deadline, "margin", margin] => {
                found.tasks.push(Stand {
                    processor: on.parse().ok()?,
                    response: response.parse().ok()?,
                    deadline: deadline.parse().ok()?,
                    margin: margin.parse().ok()?,
                });
            }
            ["load", _, load] => found.loads.push(load.parse().ok()?),
            ["conflict", ref tasks @ ..] => conflicts.push(set(tasks)?),
            _ => return None,
        }
    }
    let found = (first == ["found"]).then_some(found);
    Some(Listing::Searched { found, conflicts, complete: *last == ["complete"] })
}

fn set(tasks: &[&str]) -> Option<u32> {
    tasks.iter().try_fold(0, |set, task| Some(set | 1u32.checked_shl(task.parse().ok()?)?))
}
