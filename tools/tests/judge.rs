//! Judging placements: the tool's number beside that of the independent judge.

use tools::comparison::judging::{NUMBERS, compare};
use tools::examples::{judging, paper};
use tools::file::encode;
use tools::judge::judge_number;
use tools::tool;

#[test]
fn examples_worked_by_hand() {
    for example in judging::all() {
        assert_eq!(tool::judge(&example.file(), &example.placement), example.number, "{}", example.what);
    }
}

/// The paper's first allocation keeps the placement rules and misses deadlines.
#[test]
fn the_paper() {
    let (placement, _) = judging::of_the_paper();
    assert_eq!(tool::judge(&encode(&paper::table()), &placement), 107);
}

#[test]
fn generated_files_and_placements() {
    let seed = 0x6A75_6467_6500;
    let tally =
        compare(seed, 450, &judge_number, &tool::judge).unwrap_or_else(|difference| panic!("{difference:?}"));
    println!("seed {seed}: {tally:?}");
    assert!(tally.values().sum::<u64>() >= 500_000);
    for number in NUMBERS {
        assert!(tally.get(&number).is_some_and(|&count| count >= 1_000), "{number} hardly occurs: {tally:?}");
    }
}
