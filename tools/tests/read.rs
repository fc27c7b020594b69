//! Reading: the tool beside the independent reader.

use tools::comparison::reading::compare;
use tools::examples::reading;
use tools::tool;

#[test]
fn examples_worked_by_hand() {
    for example in reading::all() {
        let found = tool::read(&example.file.bytes);
        assert_eq!((found >> 32, found & 0xFFFF_FFFF), (example.number, example.place), "{}", example.what);
    }
}

#[test]
fn generated_files() {
    let seed = 0x7461_626C_6573;
    let tally = compare(seed, 60, &tool::read).unwrap_or_else(|difference| panic!("{difference:?}"));
    let total: u64 = tally.iter().sum();
    println!("seed {seed}: {total} files, by number {tally:?}");
    assert!(total >= 1_000_000);
    assert!(tally.iter().all(|&count| count >= 1_000), "a number that hardly occurs: {tally:?}");
}
