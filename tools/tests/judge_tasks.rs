//! Judging placements with all that is handed back, the number concerned, the responses and the margins: the
//! tool beside the independent judge, in buffers of every length that matters.

use tools::comparison::judging::NUMBERS;
use tools::comparison::margins;
use tools::comparison::responses::{Margins, Seen, compare, untouched};
use tools::examples::{judging, paper, reading, searching};
use tools::file::encode;
use tools::tool;

/// Judges into a buffer of this length: what comes back is the code and the whole buffer.
fn judged(file: &[u8], placement: &[u8], length: usize) -> (u64, Vec<i32>) {
    let mut out = untouched(length);
    (tool::judge_tasks(file, placement, &mut out), out)
}

/// These numbers, and behind them what stood there before.
fn with(written: &[i32], length: usize) -> Vec<i32> {
    [written, &untouched(length)[written.len()..]].concat()
}

#[test]
fn examples_worked_by_hand() {
    for example in judging::all() {
        let (code, written) = example.written();
        for length in [written.len(), written.len() + 1, 60] {
            let found = judged(&example.file(), &example.placement, length);
            assert_eq!(found, (code, with(&written, length)), "{}", example.what);
        }
    }
}

/// The paper's first allocation keeps the placement rules, and five tasks are late, of which 5 is the lowest.
/// As the deadlines are the periods, these are beyond.
#[test]
fn the_paper() {
    let (placement, late) = judging::of_the_paper();
    let (code, out) = judged(&encode(&paper::table()), &placement, 42);
    assert_eq!((code, out[0], out[1]), (42, 107, 5));
    let zeros: Vec<usize> = (0..20).filter(|task| out[2 + task] == 0).collect();
    assert_eq!(zeros, late);
    let beyond: Vec<usize> = (0..20).filter(|task| out[22 + task] == i32::MIN).collect();
    assert_eq!(beyond, late);
    // Alone on the last processor: 18, 1, 10 and 3 in the order of their priorities.
    assert_eq!([18, 1, 10, 3].map(|task| out[2 + task]), [538, 1101, 1947, 7437]);
    // Of 2000, 2000, 12,000 and 8000.
    assert_eq!([18, 1, 10, 3].map(|task| out[22 + task]), [1462, 899, 10_053, 563]);
}

/// Refusals 1 to 11, whatever the placement and the buffer.
#[test]
fn files_that_are_refused() {
    for example in reading::all().into_iter().filter(|example| example.number != 0) {
        for (placement, length) in [(vec![], 0), (vec![0], 4), (vec![255; 24], 50), (vec![8, 0], 100)] {
            let found = judged(&example.file.bytes, &placement, length);
            let code = example.number << 32 | example.place;
            assert_eq!(found, (code, untouched(length)), "{}", example.what);
        }
    }
}

/// Three tasks on two processors need eight places. First 13, then 14, then 12.
#[test]
fn the_order_of_refusals() {
    let file = encode(&searching::three());
    let (wrong_length, too_short) = (13 << 32, 12 << 32);
    let unknown = |place: u64| (14 << 32) + place;
    for length in 0..=10 {
        for placement in [&[] as &[u8], &[0, 0], &[2, 2], &[0, 0, 1, 0], &[9; 300]] {
            assert_eq!(judged(&file, placement, length), (wrong_length, untouched(length)), "{placement:?}");
        }
        for (placement, place) in [([2, 0, 0], 0), ([0, 255, 2], 1), ([0, 0, 2], 2)] {
            assert_eq!(judged(&file, &placement, length), (unknown(place), untouched(length)));
        }
        let expected = match length {
            0..8 => (too_short, untouched(length)),
            _ => (8, with(&[0, 0, 1, 3, 3, 3, 3, 6], length)),
        };
        assert_eq!(judged(&file, &[0, 0, 1], length), expected, "{length}");
    }
}

#[test]
fn generated_files_and_placements() {
    let seed = 0x7461_736B_7300;
    let tally = compare(seed, 200, &tool::judge_tasks).unwrap_or_else(|difference| panic!("{difference:?}"));
    println!("seed {seed}: {} answers, {tally:?}", tally.values().map(|seen| seen.answers).sum::<u64>());
    for number in NUMBERS.into_iter().chain([12]).map(u64::from) {
        let seen = tally.get(&number).unwrap_or_else(|| panic!("{number} does not occur"));
        assert!(seen.answers >= 1_000, "{number} hardly occurs: {seen:?}");
        // 0, 106, 12 and 13 have no number or place but 0.
        match number {
            0 | 12 | 13 | 106 => assert_eq!(seen.not_at_0, 0, "{number}"),
            _ => assert!(seen.not_at_0 >= 1_000, "{number} hardly beyond 0: {seen:?}"),
        }
        every_sort_of_task(number, seen);
    }
}

/// Beside a broken rule there are tasks in time and late ones, and margins of every sort; beside 0 none is
/// late, and beside a refusal is nothing.
fn every_sort_of_task(number: u64, seen: &Seen) {
    let (late, in_time, margins) = (seen.with_late, seen.with_response, &seen.with_margin);
    match number {
        0 => {
            assert_eq!((late, in_time, margins.below, margins.beyond), (0, seen.answers, 0, 0));
            assert!(margins.zero >= 1_000 && margins.above >= 1_000, "{seen:?}");
        }
        101..=107 => {
            assert!(late >= 1_000 && in_time >= 1_000 && margins.least() >= 1_000, "{number}: {seen:?}");
            assert!(number != 107 || late == seen.answers, "{seen:?}");
        }
        _ => assert_eq!((late, in_time, margins), (0, 0, &Margins::default()), "{number}"),
    }
}

/// None of these placements is refused, and most break a rule.
#[test]
fn margins_in_small_tables() {
    let seed = 0x6D61_7267_696E;
    let met = margins::compare(seed, 250_000, &tool::judge_tasks)
        .unwrap_or_else(|difference| panic!("{difference:?}"));
    println!("seed {seed}: {met:?}");
    assert!(met.placements >= 200_000 && met.breaking_rules >= 1_000, "{met:?}");
    assert!(met.least() >= 1_000, "a sort that hardly occurs: {met:?}");
}
