//! A listing for people: the same facts with the table's names, and a sentence that says what they mean.

use crate::columns::aligned;
use crate::listing::{Found, Listing, Stand};
use crate::margin::Margin;
use crate::model::{Cause, Kind, LARGEST_LIMIT, Refusal, Table, Task};
use crate::reader::read;
use crate::text::Names;
use crate::text::line::keyword;
use crate::text::write::{named, words};

/// How many signs a full processor's bar has.
const BAR: u64 = 40;

/// Between the columns.
const GAP: &str = "  ";

/// None if the listing is not one of this file. Without names they are made up.
pub fn explain(file: &[u8], names: Option<Names>, listing: &Listing) -> Option<String> {
    match (read(file), listing) {
        (Err(refusal), Listing::Refused(printed)) if refusal == *printed => Some(refused(file, refusal)),
        (Ok(table), Listing::Searched { found, conflicts, complete }) if fits(&table, listing) => {
            let names = names.unwrap_or_else(|| Names::made_up(&table));
            let meaning = meaning(found.is_some(), conflicts.len(), *complete);
            let found = found.as_ref().map_or_else(String::new, |found| placement(&table, &names, found));
            Some(format!("{meaning}\n{found}{}", sets(&names, conflicts)))
        }
        _ => None,
    }
}

/// Whether the listing has the tasks and processors of this table. No load of a placement is above 1000: it
/// keeps its limit, which is a whole number of thousandths, so that rounding to the nearest does not pass it.
fn fits(table: &Table, listing: &Listing) -> bool {
    let Listing::Searched { found, conflicts, .. } = listing else {
        return false;
    };
    let stands = |(stand, task): (&Stand, &Task)| {
        stand.processor < table.processors.len() && stand.deadline == task.deadline && agree(stand, task)
    };
    let placed = |found: &Found| {
        found.tasks.len() == table.tasks.len()
            && found.loads.len() == table.processors.len()
            && found.loads.iter().all(|&load| load <= LARGEST_LIMIT.into())
            && found.tasks.iter().zip(&table.tasks).all(stands)
    };
    found.as_ref().is_none_or(placed) && conflicts.iter().all(|conflict| conflict >> table.tasks.len() == 0)
}

/// Whether the response and the margin can be of one task: for one that is late the response is 0, and the
/// margin is beyond or says by how much, which is at most up to the period.
fn agree(stand: &Stand, task: &Task) -> bool {
    let [response, deadline, period] = [stand.response, task.deadline, task.period].map(i64::from);
    match stand.margin {
        Margin::Beyond => response == 0,
        Margin::Known(margin) => match deadline - i64::from(margin) {
            least if least > deadline => response == 0 && least <= period,
            least => response == least && response > 0,
        },
    }
}

/// One sentence for each sort of answer. The mark is said as what it means for the earlier placements.
fn meaning(found: bool, conflicts: usize, complete: bool) -> String {
    let listed = match conflicts {
        0 => "no set is listed".to_string(),
        1 => "the set listed cannot share a processor".to_string(),
        _ => format!("each of the {conflicts} sets listed cannot share a processor"),
    };
    let such = if conflicts == 1 { "that set" } else { "such a set" };
    let first = "Found: this is the first placement that keeps the rules and in which no job is ever late";
    let none = "No placement exists";
    match (found, complete, conflicts) {
        (true, true, 0) => format!("{first}; every earlier one breaks a rule."),
        (true, true, _) => {
            format!("{first}; {listed}, and every earlier one breaks a rule or has {such} on one processor.")
        }
        (true, false, _) => format!(
            "{first}; {listed}, but the list is cut: some earlier one keeps the rules and has no set listed \
             on one processor; it is late by another."
        ),
        (false, true, 0) => format!("{none}: none keeps the rules."),
        (false, true, 1) => {
            format!("{none}: {listed}, and this rules out every placement that keeps the rules.")
        }
        (false, true, _) => {
            format!("{none}: {listed}, and together they rule out every placement that keeps the rules.")
        }
        (false, false, _) => format!(
            "{none}; {listed}, but the list is cut: some placement keeps the rules and has no set listed \
             on one processor; it is late by another."
        ),
    }
}

fn placement(table: &Table, names: &Names, found: &Found) -> String {
    let mut tasks = vec![words([&"task", &"processor", &"response", &"deadline", &"margin"]).to_vec()];
    for (Stand { processor, response, deadline, margin }, name) in found.tasks.iter().zip(&names.tasks) {
        tasks.push(words([name, &names.processors[*processor], response, deadline, margin]).to_vec());
    }
    let mut loads = vec![words([&"processor", &"load", &"limit"]).to_vec()];
    for ((load, name), processor) in found.loads.iter().zip(&names.processors).zip(&table.processors) {
        loads.push(words([name, load, &processor.limit, &bar(*load)]).to_vec());
    }
    format!("\n{}\n{}", aligned(&tasks, GAP), aligned(&loads, GAP))
}

/// Rounded by itself, from the printed load: each sign stands for 25 thousandths, and a begun one shows.
fn bar(load: u64) -> String {
    let filled = (load * BAR).div_ceil(1000);
    format!("|{}{}|", "#".repeat(filled as usize), " ".repeat((BAR - filled) as usize))
}

fn sets(names: &Names, conflicts: &[u32]) -> String {
    let line = |&conflict: &u32| format!("  {}\n", named(&names.tasks, conflict).join(", "));
    match conflicts {
        [] => String::new(),
        _ => format!("\ncannot share a processor:\n{}", conflicts.iter().map(line).collect::<String>()),
    }
}

fn refused(file: &[u8], refusal: Refusal) -> String {
    let Refusal { cause, place } = refusal;
    let number = cause as u8;
    let what = match cause {
        Cause::KindMissing => format!("at its end, after {place} bytes"),
        _ => format!("at byte {place}, {}", record(file, place)),
    };
    format!("The file is refused, number {number}, {what}: {}.\n", cause.words())
}

/// The record at a place behind records that are whole, with its number among those of its kind.
fn record(file: &[u8], place: usize) -> String {
    let kind = |at: usize| file[at..].first_chunk().and_then(Kind::of_mark);
    let Some(own) = kind(place) else {
        return "which is no record".to_string();
    };
    let (mut at, mut number) = (0, 0);
    while let Some(earlier) = kind(at).filter(|_| at < place) {
        number += usize::from(earlier == own);
        at += earlier.length();
    }
    format!("{} {number} (the first is 0)", keyword(own))
}
