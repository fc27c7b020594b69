//! The blueprint: the search in plain Rust without proofs, which the benchmark compares the tool with. The tool's
//! crates have the same names where they do the same.
//!
//!     rustc -O --edition 2024 placement_search.rs
//!     ./placement_search TABLE [STEPS]
//!
//! STEPS are the letters of the steps that are taken, CEABG if not said (steps.rs). The first line that is printed is
//! the one that the benchmark's own process prints for the tool: the seconds of one round, the placement, the answer.
//! The second counts what was done.

mod bound;
mod bound_cache;
mod conflicts;
mod first;
mod guide;
mod knapsack;
mod lateness;
mod learnt;
mod multipliers;
mod network;
mod nogoods;
mod search;
mod state;
mod steps;
mod table;

use first::Answer;
use guide::Guide;
use learnt::Learnt;
use search::Search;
use std::time::Instant;
use steps::Steps;
use table::Table;

/// The bytes of the answer that the tool is asked for.
const ANSWER_BYTES: usize = 16_384;

fn main() {
    let arguments: Vec<String> = std::env::args().skip(1).collect();
    let (path, letters) = match &arguments[..] {
        [path] => (path, Steps::USUAL),
        [path, letters] => (path, letters.as_str()),
        _ => panic!("usage: placement_search TABLE [STEPS]"),
    };
    let table = Table::of_file(&std::fs::read(path).expect("a table file"));
    let guide = Guide::of(&table);
    let steps = Steps::of(letters).expect("letters of steps");
    let mut learnt = Learnt::new(steps);
    let (start, clock, mut rounds) = (processor_seconds(), Instant::now(), 1);
    let mut last = searched(&table, &guide, steps, &mut learnt);
    while clock.elapsed().as_secs_f64() < 0.2 {
        last = searched(&table, &guide, steps, &mut learnt);
        rounds += 1;
    }
    let seconds = (processor_seconds() - start) / f64::from(rounds);
    print(seconds, &table, &last);
}

/// What is printed of a search.
struct Searched {
    answer: Answer,
    conflicts: usize,
    counts: search::Counts,
}

fn searched(table: &Table, guide: &Guide, steps: Steps, learnt: &mut Learnt) -> Searched {
    let mut search = Search::new(table, guide, steps, learnt, (ANSWER_BYTES - table.tasks - 5) / 6);
    let answer = search.answer();
    Searched { answer, conflicts: search.nogoods.conflicts.len(), counts: search.counts }
}

fn print(seconds: f64, table: &Table, Searched { answer, conflicts, counts }: &Searched) {
    let placement: Vec<String> = answer.placement[..table.tasks].iter().map(u8::to_string).collect();
    let found = if answer.found { "found" } else { "none" };
    let mark = if answer.cut { "cut" } else { "complete" };
    println!("{seconds} {} {found}, {mark}, {conflicts} conflicts", placement.join("."));
    println!(
        "{} nodes, {} lateness tests, {} packings",
        counts.nodes, counts.lateness_tests, counts.packings
    );
}

/// The processor time of this process, by the clock that the benchmark reads for the tool.
fn processor_seconds() -> f64 {
    unsafe extern "C" {
        fn clock_gettime(clock: i32, time: *mut [i64; 2]) -> i32;
    }
    let mut time = [0; 2];
    // SAFETY: on 64-bit Linux a time is two 64-bit numbers, seconds and nanoseconds, and only it is written.
    assert_eq!(unsafe { clock_gettime(2, &mut time) }, 0);
    time[0] as f64 + time[1] as f64 / 1e9
}
