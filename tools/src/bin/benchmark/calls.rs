//! Reading, judging and lateness: many calls of the tool beside as many of the independent implementation.

use crate::print_row;
use crate::time::{Time, median, ratio};
use std::hint::black_box;
use std::time::Instant;
use tools::examples::task;
use tools::file::encode;
use tools::generate::sets::free_table;
use tools::generate::tables::{Shape, table};
use tools::judge::{Placed, RULES};
use tools::model::Task;
use tools::random::Random;
use tools::schedule::late;
use tools::{reader, tool};

const ROUNDS: usize = 9;
const CALLS: usize = 20_000;

pub fn calls() {
    print_row("instance", "answer", &["tool", "rust", "ratio"]);
    let file = encode(&table(&mut Random::new(1), Shape::FULL));
    let read = format!("read a file of {} bytes", file.len());
    beside(&read, &|| tool::read(black_box(&file)), &|| reader::read_code(black_box(&file)));
    let placement: Vec<u8> = (0..24).map(|task| task % 8).collect();
    let tool = || u64::from(tool::judge(black_box(&file), black_box(&placement)));
    let rust = || judge_with_responses(black_box(&file), black_box(&placement));
    beside("judge 24 tasks on 8 processors", &tool, &rust);
    for count in [2, 6, 12, 24] {
        lateness(count);
    }
}

/// The number of a placement that isn't refused, and each response, as the tool works them out too. The margins
/// are left out: those of the independent implementation are simulated.
fn judge_with_responses(file: &[u8], placement: &[u8]) -> u64 {
    let table = reader::read(file).expect("a file that is read");
    let placed = Placed { table: &table, placement };
    (0..placement.len()).for_each(|task| _ = black_box(placed.response(task)));
    let broken = RULES.into_iter().find(|&rule| !placed.keeps(rule));
    broken.map_or(0, |rule| rule as u64)
}

/// One test for each of many equal sets; reading the file once is lost among them.
fn lateness(count: u32) {
    let tasks = set_in_time(count);
    let file = encode(&free_table(tasks.clone(), 1));
    let sets = vec![(1u32 << count) - 1; CALLS];
    let tool = || tool::late_sets(black_box(&file), black_box(&sets));
    let rust = || sets.iter().map(|&set| u64::from(late(black_box(&tasks), set))).sum();
    assert_eq!(tool(), rust(), "the same answers");
    beside_in(&format!("lateness of {count} tasks"), CALLS, &tool, &rust);
}

/// Tasks that load a processor to about 0.7, priorities by rising period: none is late, so that the
/// test has to work out every response.
fn set_in_time(count: u32) -> Vec<Task> {
    let of_number = |number: u32| {
        let period = [1000, 1200, 1500, 2000, 3000, 6000][(number * 6 / count) as usize];
        task(period * 7 / 10 / count, period, period, 100 - number as u16)
    };
    (0..count).map(of_number).collect()
}

/// Many calls of each.
fn beside(instance: &str, tool: &dyn Fn() -> u64, rust: &dyn Fn() -> u64) {
    let repeated = |work: &dyn Fn() -> u64| (0..CALLS).fold(0, |_, _| black_box(work()));
    beside_in(instance, CALLS, &|| repeated(tool), &|| repeated(rust));
}

/// Runs both in turn, so that a slow spell of the machine meets both, and prints the medians for one of
/// the tests that each run makes.
fn beside_in(instance: &str, tests: usize, tool: &dyn Fn() -> u64, rust: &dyn Fn() -> u64) {
    let times: Vec<[Time; 2]> = (0..ROUNDS).map(|_| [took(tool, tests), took(rust, tests)]).collect();
    let [tool, rust] = [0, 1].map(|which| median(&times.iter().map(|pair| pair[which]).collect::<Vec<_>>()));
    print_row(instance, "", &[&tool.to_string(), &rust.to_string(), &ratio(tool, rust)]);
}

fn took(work: &dyn Fn() -> u64, tests: usize) -> Time {
    let start = Instant::now();
    black_box(work());
    Time::Took(start.elapsed().as_secs_f64() / tests as f64)
}
