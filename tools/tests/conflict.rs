//! The conflict check and the count of late sets: the tool beside the independent ones.

use tools::comparison::conflicts::compare;
use tools::comparison::lateness::{self, Tally};
use tools::examples::{paper, processor, task};
use tools::file::{File, encode};
use tools::tool;

#[test]
fn the_paper() {
    let file = encode(&paper::table());
    for (tasks, answer) in paper::CONFLICTS {
        assert_eq!(tool::conflict(&file, paper::mask(tasks)), answer, "{tasks:?}");
    }
}

/// 01's table of cases: with D 9 for the third task the three are a minimal conflict; any two are in
/// time. A fourth task of a tick in 12, of the lowest priority, makes the set late but not minimal.
/// Then refusal 15, with place 0: no task, one task, a task that the file does not have.
#[test]
fn cases_worked_by_hand() {
    let three = File::new()
        .network(5)
        .processor(processor(100, 1000))
        .task(task(1, 4, 4, 30))
        .task(task(2, 6, 6, 20))
        .task(task(3, 12, 9, 10))
        .task(task(1, 12, 12, 1));
    let refused = 15 << 32;
    let cases = [
        (0b0111, 2),
        (0b0011, 0),
        (0b0101, 0),
        (0b0110, 0),
        (0b1111, 1),
        (0, refused),
        (0b0001, refused),
        (0b1000, refused),
        (0b1_0001, refused),
        (1 << 31 | 0b11, refused),
    ];
    for (mask, expected) in cases {
        assert_eq!(tool::conflict(&three.bytes, mask), expected, "{mask:b}");
    }
    // A file of 102 bytes that is cut in its last record, at 80, is refused before a bad mask.
    assert_eq!(three.bytes.len(), 102);
    assert_eq!(tool::conflict(&three.bytes[..101], 0), (1 << 32) + 80);
}

#[test]
fn generated_files_and_masks() {
    let seed = 0x636F_6E66_6C69;
    let tally = compare(seed, 20_000, &tool::conflict).unwrap_or_else(|difference| panic!("{difference:?}"));
    let counts = tally.counts();
    println!("seed {seed}: {} pairs, {tally:?}", counts.iter().sum::<u64>());
    assert!(counts.iter().sum::<u64>() >= 200_000);
    assert!(counts.iter().all(|&count| count >= 1_000), "an answer that hardly occurs: {tally:?}");
}

/// Of the paper's sets 7 are late; a task that the table does not have counts for nothing, nor does no set.
#[test]
fn late_sets_of_the_paper() {
    let file = encode(&paper::table());
    let mut sets: Vec<u32> = paper::CONFLICTS.iter().map(|&(tasks, _)| paper::mask(tasks)).collect();
    assert_eq!(tool::late_sets(&file, &sets), 7);
    sets.extend([1 << 20, 1 << 5 | 1 << 9 | 1 << 31, 0]);
    assert_eq!(tool::late_sets(&file, &sets), 7);
    assert_eq!(tool::late_sets(&file, &[]), 0);
    assert_eq!(tool::late_sets(&file[..file.len() - 1], &sets), 0);
}

#[test]
fn generated_late_sets() {
    let seed = 0x006C_6174_6500;
    let tally = lateness::compare(seed, 20_000, &tool::late_sets)
        .unwrap_or_else(|difference| panic!("{difference:?}"));
    println!("seed {seed}: {tally:?}");
    let Tally { late, in_time, unknown, refused, lists } = tally;
    assert!(late >= 50_000 && in_time >= 50_000, "{tally:?}");
    assert!([unknown, refused, lists].iter().all(|&count| count >= 10_000), "{tally:?}");
}
