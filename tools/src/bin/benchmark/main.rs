//! Times of the tool beside those of other programs in the same run, a row for each instance. The ratio is the
//! tool's time by the other's; a search that is stopped has taken longer than shown.
//!
//!     benchmark                                both tables that follow
//!     benchmark calls                          reading, judging, lateness: beside the independent implementation
//!     benchmark searches [seconds] [with-DF]   searches: beside the blueprint, and beside it with steps D and F
//!     benchmark steps [seconds]                the blueprint alone, with each of its steps left out in turn
//!     benchmark growth [seconds]               searches by the number of tasks and processors: the tool alone
//!
//! The seconds are the processor time that one search may take, 20 if not said.

mod blueprint;
mod calls;
mod growth;
mod instances;
mod process;
mod searches;
mod steps;
mod time;

use searches::Wanted;
use std::path::Path;

const SECONDS: u64 = 20;

fn main() {
    let arguments: Vec<String> = std::env::args().skip(1).collect();
    let limit = |word: &str| word.parse().expect("a number of seconds");
    let search = |limit, further_steps| searches::searches(&Wanted { limit, further_steps });
    match arguments.iter().map(String::as_str).collect::<Vec<_>>()[..] {
        [] => {
            calls::calls();
            search(SECONDS, false);
        }
        ["calls"] => calls::calls(),
        ["searches"] => search(SECONDS, false),
        ["searches", "with-DF"] => search(SECONDS, true),
        ["searches", seconds] => search(limit(seconds), false),
        ["searches", seconds, "with-DF"] => search(limit(seconds), true),
        ["steps"] => steps::steps(SECONDS),
        ["steps", seconds] => steps::steps(limit(seconds)),
        ["growth"] => growth::growth(SECONDS),
        ["growth", seconds] => growth::growth(limit(seconds)),
        [process::SEARCH, path] => process::search(Path::new(path)),
        _ => eprintln!(
            "usage: benchmark [calls | searches [seconds] [with-DF] | steps [seconds] | growth [seconds]]"
        ),
    }
}

/// Cells in columns of ten, behind what they are of.
fn print_row(instance: &str, answer: &str, cells: &[&str]) {
    let cells: String = cells.iter().map(|cell| format!(" {cell:>10}")).collect();
    println!("{}", format!("{instance:<32} {answer:<32}{cells}").trim_end());
}
