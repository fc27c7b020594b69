//! The search: the tool's answers checked, on small tables by trying all placements and running each
//! processor tick by tick, on medium ones by an independent search.

use tools::comparison::searching::{Difference, Tally, compare_long, compare_medium, compare_small};
use tools::examples::{reading, searching, task};
use tools::file::encode;
use tools::generate::sets::free_table;
use tools::model::{Cause, Refusal};
use tools::tool;

/// 01 "The program", with its buffer of zero bytes. Found: 0 and 1 on processor 0, 2 on 1. One conflict,
/// 0 1 2. Complete. 3 + 5 + 6 = 14 bytes.
#[test]
fn the_programs_example() {
    let mut answer = [0; 16_384];
    assert_eq!(tool::search(&encode(&searching::three()), &mut answer), Ok(14));
    assert_eq!(answer[..5], [0x41, 0x4C, 0, 0, 1]);
    assert_eq!(answer[5..11], [0x4E, 0x47, 0b111, 0, 0, 0]);
    assert_eq!(answer[11..14], [0x45, 0x4E, 1]);
    assert!(answer[14..].iter().all(|&byte| byte == 0));
}

#[test]
fn examples_worked_by_hand() {
    for example in searching::all() {
        let mut buffer = vec![9; example.buffer];
        let count = tool::search(&example.file(), &mut buffer).expect("an answer");
        let (answer, behind) = buffer.split_at(count);
        assert!(example.answers.contains(&answer.to_vec()), "{}: {answer:?}", example.what);
        assert!(behind.iter().all(|&byte| byte == 9), "{}", example.what);
    }
}

/// Refusals 1 to 11, whatever the buffer's length.
#[test]
fn files_that_are_refused() {
    for example in reading::all().into_iter().filter(|example| example.number != 0) {
        for length in [0, 5, 6, 29, 100] {
            let mut buffer = vec![9; length];
            let refusal = tool::search(&example.file.bytes, &mut buffer).expect_err(example.what);
            assert_eq!(refusal.code(), example.number << 32 | example.place, "{}", example.what);
            assert!(buffer.iter().all(|&byte| byte == 9), "{}", example.what);
        }
    }
}

/// Refusal 12: three tasks need 8 bytes, 24 need 29.
#[test]
fn buffers_that_are_too_short() {
    let too_short = Err(Refusal { cause: Cause::BufferTooShort, place: 0 });
    let many = free_table((0..24).map(|priority| task(1, 24, 24, priority)).collect(), 1);
    for (table, shortest) in [(searching::three(), 8), (many, 29)] {
        let file = encode(&table);
        for length in 0..shortest {
            let mut buffer = vec![9; length];
            assert_eq!(tool::search(&file, &mut buffer), too_short);
            assert!(buffer.iter().all(|&byte| byte == 9), "{length}");
        }
        assert_eq!(tool::search(&file, &mut vec![9; shortest]), Ok(shortest));
    }
}

fn passed(seed: u64, compared: Result<Tally, Difference>) -> Tally {
    let tally = compared.unwrap_or_else(|difference| panic!("{difference:?}"));
    println!("seed {seed}: {} answers, {tally:?}", tally.answers());
    tally
}

#[test]
fn small_tables_with_every_length_of_the_buffer() {
    let seed = 0x7365_6172_6368;
    let tally = passed(seed, compare_small(seed, 50_000, &tool::search));
    assert!(tally.least() >= 1_000 && tally.refused >= 100_000, "an outcome that hardly occurs: {tally:?}");
}

#[test]
fn medium_tables() {
    let seed = 0x6D65_6469_756D;
    let tally = passed(seed, compare_medium(seed, 500, &tool::search));
    assert!(tally.least() >= 100, "an outcome that hardly occurs: {tally:?}");
}

#[test]
fn tables_with_long_lists() {
    let seed = 0x6C6F_6E67;
    let tally = passed(seed, compare_long(seed, 100, &tool::search));
    let outcomes = [tally.found, tally.none, tally.cut, tally.complete];
    assert!(tally.long >= 300 && outcomes.iter().all(|&times| times >= 100), "hardly occurs: {tally:?}");
}
