//! The program: all that it prints, checked by the independent reader, search and judge.

use tools::comparison::printing::{PROGRAMS_INPUT, Tally, check, compare};
use tools::examples::searching::{self, LISTING, three};
use tools::examples::{reading, rounding};
use tools::file::encode;
use tools::generate::files::{Sort, sorts};
use tools::program::{Ran, pieces, place};
use tools::random::Random;

fn prints(what: &str, input: &[&[u8]], expected: &str) {
    let Ran { status, printed, said } = place(input);
    assert_eq!((status, said.as_slice()), (Some(0), b"".as_slice()), "{what}");
    assert_eq!(String::from_utf8_lossy(&printed), expected, "{what}");
}

#[test]
fn the_example_byte_by_byte_and_in_pieces_of_every_length() {
    let file = encode(&three());
    for length in 1..=file.len() {
        prints(&format!("pieces of {length}"), &pieces(&file, &[length]), LISTING);
    }
}

#[test]
fn files_worked_by_hand() {
    let refused = reading::all().into_iter().filter(|example| example.number != 0);
    for example in refused {
        let line = format!("refused {} {}\n", example.number, example.place);
        prints(example.what, &[&example.file.bytes], &line);
    }
    for example in searching::all() {
        let ran = place(&[&example.file()]);
        check(&example.file(), &ran).unwrap_or_else(|wrong| panic!("{}: {wrong:?}", example.what));
    }
}

#[test]
fn loads_worked_by_hand() {
    for example in rounding::all() {
        prints(example.what, &[&encode(&example.table)], example.listing);
    }
}

/// What stands beyond the bytes that the program reads changes nothing: here it would be another table.
#[test]
fn long_files() {
    let example = encode(&three());
    let end = format!("refused 2 {}\n", example.len());
    for length in [PROGRAMS_INPUT - 1, PROGRAMS_INPUT, PROGRAMS_INPUT + 1, 1_000_000] {
        let mut long = example.clone();
        long.resize(length, b'Q');
        long.extend_from_slice(&example);
        prints(&format!("{length} bytes and a table"), &[&long], &end);
        prints(&format!("{length} bytes and a table, in pieces"), &pieces(&long, &[5_000, 3]), &end);
    }
}

#[test]
fn generated_files() {
    let seed = 0x0070_6C61_6365;
    let files = sorts().into_iter().cycle().take(3_700);
    let tally = compare(seed, files, &place).unwrap_or_else(|difference| panic!("{difference:?}"));
    println!("seed {seed}: {} files, {tally:?}", tally.files());
    assert!(tally.files() >= 3_000 && tally.pieces >= 5 * tally.files(), "{tally:?}");
    assert!(tally.least() >= 50, "an outcome that hardly occurs: {tally:?}");
}

#[test]
fn loads_between_two_thousandths() {
    let seed = 0x6861_6C76_6573;
    let mut random = Random::new(seed);
    let mut tally = Tally::default();
    for _ in 0..2_000 {
        let file = Sort::Halves.file(&mut random);
        let listing = check(&file, &place(&[&file])).unwrap_or_else(|wrong| panic!("{wrong:?}: {file:?}"));
        tally.note(&file, &listing);
    }
    println!("seed {seed}: {} files, {:?}", tally.files(), tally.loads);
    assert!(tally.found >= 1_500 && tally.none >= 150, "{tally:?}");
    assert!(tally.loads.least() >= 500, "a place that hardly occurs: {:?}", tally.loads);
}
