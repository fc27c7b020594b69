//! Listings for people, and the binary `table`.

use std::fs;
use std::path::{Path, PathBuf};
use std::process::Command;
use tools::comparison::explained::check;
use tools::comparison::explaining::compare;
use tools::examples::searching::{LISTING, three};
use tools::examples::{reading, task};
use tools::explain::explain;
use tools::file::encode;
use tools::generate::files::sorts;
use tools::generate::sets::free_table;
use tools::listing::{Found, Listing, Stand, parse};
use tools::margin::Margin;
use tools::model::Refusal;
use tools::program::{self, root};
use tools::tool;

const EXAMPLE: &str = "\
Found: this is the first placement that keeps the rules and in which no job is ever late; the set listed \
cannot share a processor, and every earlier one breaks a rule or has that set on one processor.

task    processor  response  deadline  margin
brake   drive-a           1         4       3
motor   drive-a           3         6       3
report  drive-b           3         9       6

processor  load  limit
drive-a     583   1000  |########################                |
drive-b     250   1000  |##########                              |

cannot share a processor:
  brake, motor, report
";

/// The same table as a file, which has no names.
const WITHOUT_NAMES: &str = "\
Found: this is the first placement that keeps the rules and in which no job is ever late; the set listed \
cannot share a processor, and every earlier one breaks a rule or has that set on one processor.

task  processor  response  deadline  margin
t0    p0                1         4       3
t1    p0                3         6       3
t2    p1                3         9       6

processor  load  limit
p0          583   1000  |########################                |
p1          250   1000  |##########                              |

cannot share a processor:
  t0, t1, t2
";

const BARRIER: &str = "\
Found: this is the first placement that keeps the rules and in which no job is ever late; each of the 2 sets \
listed cannot share a processor, and every earlier one breaks a rule or has such a set on one processor.

task        processor  response  deadline  margin
lamp        card-a            2         2       0
gate-left   card-b            2         4       2
gate-right  card-b            4         4       0

processor  load  limit
card-a      500   1000  |####################                    |
card-b     1000   1000  |########################################|

cannot share a processor:
  lamp, gate-left
  lamp, gate-right
";

const REFUSED: &str =
    "The file is refused, number 7, at byte 36, task 1 (the first is 0): the priority of an earlier task.\n";

/// A listing of the program's example, with these sets and this mark.
fn of_the_program(found: bool, conflicts: Vec<u32>, complete: bool) -> Listing {
    let stand = |processor, response, deadline, margin| {
        let margin = Margin::Known(margin);
        Stand { processor, response, deadline, margin }
    };
    let tasks = vec![stand(0, 1, 4, 3), stand(0, 3, 6, 3), stand(1, 3, 9, 6)];
    let found = found.then(|| Found { tasks, loads: vec![583, 250] });
    Listing::Searched { found, conflicts, complete }
}

/// The same, with this response and this margin of the last task.
fn with_last(response: u32, margin: Margin) -> Listing {
    let mut listing = of_the_program(true, Vec::new(), true);
    if let Listing::Searched { found: Some(found), .. } = &mut listing {
        let last = found.tasks.last_mut().expect("a task");
        (last.response, last.margin) = (response, margin);
    }
    listing
}

/// A margin belongs to the response and the deadline, which is 9 in a period of 12. A late task, which no
/// found placement has, is explained all the same.
#[test]
fn margins() {
    let file = encode(&three());
    let of = |response, margin| explain(&file, None, &with_last(response, margin));
    for response in 1..=9 {
        for margin in -10..=10 {
            let explained = of(response, Margin::Known(margin));
            assert_eq!(explained.is_some(), response as i32 + margin == 9, "{response} and {margin}");
        }
        assert_eq!(of(response, Margin::Beyond), None);
    }
    for margin in (-10..=10).chain([i32::MIN, i32::MAX]) {
        assert_eq!(of(0, Margin::Known(margin)).is_some(), (-3..0).contains(&margin), "{margin}");
    }
    assert_eq!(of(10, Margin::Known(-1)), None);
    let late = of(0, Margin::Known(-3)).expect("a late task");
    assert!(late.contains("t1    p0                3         6       3\n"), "{late}");
    assert!(late.contains("t2    p1                0         9      -3\n"), "{late}");
    let beyond = of(0, Margin::Beyond).expect("a late task");
    assert!(beyond.contains("t2    p1                0         9  beyond\n"), "{beyond}");
    for (margin, explained) in [(Margin::Known(-3), late), (Margin::Beyond, beyond)] {
        assert_eq!(check(&file, None, &with_last(0, margin).to_string(), &explained), Ok(()));
    }
}

/// The longest margin is wider than the word above it: that stands at the left, and so does `beyond`.
#[test]
fn wide_margins() {
    let tasks = vec![task(999_999, 1_000_000, 1_000_000, 3), task(1, 1_000_000, 1, 2), task(1, 10, 10, 1)];
    let file = encode(&free_table(tasks, 1));
    let lines = "task 0 on 0 response 999999 deadline 1000000 margin 1\n\
        task 1 on 0 response 0 deadline 1 margin -999999\n\
        task 2 on 0 response 0 deadline 10 margin beyond\n";
    let listing = format!("found\n{lines}load 0 1000\ncomplete\n");
    let explained = explain(&file, None, &parse(&listing).expect("a listing")).expect("one of this table");
    let rows = "task  processor  response  deadline  margin\n\
        t0    p0           999999   1000000        1\n\
        t1    p0                0         1  -999999\n\
        t2    p0                0        10  beyond\n";
    assert!(explained.contains(rows), "{explained}");
    assert_eq!(check(&file, None, &listing, &explained), Ok(()));
}

/// What every listing of the example says, whether or not it is true.
#[test]
fn sentences() {
    let file = encode(&three());
    for found in [true, false] {
        for complete in [true, false] {
            for conflicts in [vec![], vec![7], vec![3, 5], vec![3, 5, 6]] {
                let listing = of_the_program(found, conflicts, complete);
                let explained = explain(&file, None, &listing).expect("a listing of this table");
                assert_eq!(check(&file, None, &listing.to_string(), &explained), Ok(()), "{explained}");
            }
        }
    }
}

/// A bar has forty signs for a thousand thousandths, and the first thousandth shows.
#[test]
fn bars() {
    let file = encode(&three());
    for (load, signs) in
        [(0, 0), (1, 1), (25, 1), (26, 2), (500, 20), (501, 21), (975, 39), (976, 40), (1000, 40)]
    {
        let mut listing = of_the_program(true, Vec::new(), true);
        if let Listing::Searched { found: Some(found), .. } = &mut listing {
            found.loads = vec![load, 0];
        }
        let bar = format!(" |{}{}|\n", "#".repeat(signs), " ".repeat(40 - signs));
        let explained = explain(&file, None, &listing).expect("a listing of this table");
        assert!(explained.contains(&bar), "{load}: {explained}");
        assert_eq!(check(&file, None, &listing.to_string(), &explained), Ok(()), "{explained}");
    }
}

#[test]
fn generated_files() {
    let seed = 0x0065_7870_6C61;
    let files = sorts().into_iter().cycle().take(6_400);
    let tally =
        compare(seed, files, &tool::search, &explain).unwrap_or_else(|difference| panic!("{difference:?}"));
    println!("seed {seed}: {} listings, {tally:?}", tally.listings());
    assert!(tally.least() >= 50, "an outcome that hardly occurs: {tally:?}");
}

/// A listing of another table is none of this one.
#[test]
fn listings_of_other_tables() {
    let file = encode(&three());
    let of = |text: &str| explain(&file, None, &parse(text).expect("a listing"));
    assert!(of("none\nconflict 0 1 2\ncomplete\n").is_some());
    assert_eq!(of("none\nconflict 0 1 3\ncomplete\n"), None);
    assert_eq!(of("refused 7 36\n"), None);
    let one_task = "found\ntask 0 on 0 response 1 deadline 4 margin 3\nload 0 583\nload 1 250\ncomplete\n";
    assert_eq!(of(one_task), None);
    let printed = of_the_program(true, vec![7], true).to_string();
    assert!(of(&printed).is_some());
    assert_eq!(of(&printed.replace("on 1", "on 2")), None);
    assert_eq!(of(&printed.replace("deadline 9", "deadline 10")), None);
    assert_eq!(of(&printed.replace("deadline 9 margin 6", "deadline 10 margin 7")), None);
    assert_eq!(of(&printed.replace("margin 6", "margin 7")), None);
    assert_eq!(of(&printed.replace("load 1 250\n", "")), None);
    // No limit lets a load of more than 1000 through.
    assert!(of(&printed.replace("load 1 250", "load 1 1000")).is_some());
    assert_eq!(of(&printed.replace("load 1 250", "load 1 1001")), None);
    assert_eq!(of(&printed.replace("load 1 250", "load 1 18446744073709551615")), None);
    assert_eq!(explain(&file[..20], None, &of_the_program(true, vec![7], true)), None);
}

/// Refusals in words: the cause, and the record by its number among those of its kind.
#[test]
fn refusals() {
    let sentence = |what: &str| {
        let example = reading::all().into_iter().find(|example| example.what == what).expect("an example");
        let refusal = Refusal::of_code(example.number << 32 | example.place).expect("a refusal");
        explain(&example.file.bytes, None, &Listing::Refused(refusal)).expect("an explanation")
    };
    let cases = [
        ("4E 54 01 00", "1, at byte 0, network 0 (the first is 0): the bytes run out within a record."),
        ("51 51 at the start", "2, at byte 0, which is no record: an unknown mark."),
        ("a ninth PR", "4, at byte 70, processor 8 (the first is 0): one more of this kind than allowed."),
        ("C 5, D 4, T 8", "5, at byte 14, task 0 (the first is 0): a number outside its range."),
        ("two TK of priority 9", "7, at byte 36, task 1 (the first is 0): the priority of an earlier task."),
        (
            "0 to 1 twice",
            "9, at byte 66, message 1 (the first is 0): the sender and receiver of an earlier message.",
        ),
        ("empty input", "11, at its end, after 0 bytes: no network, no processor or no task."),
    ];
    for (what, words) in cases {
        assert_eq!(sentence(what), format!("The file is refused, number {words}\n"));
    }
    for example in reading::all().into_iter().filter(|example| example.number != 0) {
        let listing = format!("refused {} {}\n", example.number, example.place);
        let checked = check(&example.file.bytes, None, &listing, &sentence(example.what));
        assert_eq!(checked, Ok(()), "{}", example.what);
    }
}

fn path(name: &str) -> PathBuf {
    root().join("tables").join(name)
}

/// Writes a file that the binary is to read.
fn written(name: &str, content: &[u8]) -> PathBuf {
    let path = Path::new(env!("CARGO_TARGET_TMPDIR")).join(name);
    fs::write(&path, content).expect("a file");
    path
}

/// Runs the binary with this standard input: what it prints, or what it says on standard error with status 1.
fn run(command: &str, path: &Path, input: &str) -> Result<Vec<u8>, String> {
    let mut binary = Command::new(env!("CARGO_BIN_EXE_table"));
    let ran = program::run(binary.arg(command).arg(path), &[input.as_bytes()]);
    let said = String::from_utf8(ran.said).expect("UTF-8");
    if ran.status == Some(0) {
        assert_eq!(said, "");
        return Ok(ran.printed);
    }
    assert_eq!((ran.status, ran.printed), (Some(1), Vec::new()));
    Err(said)
}

#[test]
fn texts_and_files() {
    let file = run("encode", &path("bridge.txt"), "").expect("a table file");
    let table = written("bridge.table", &file);
    assert_eq!(run("encode", &table, ""), Ok(file.clone()));
    let text = written("bridge.decoded", &run("decode", &table, "").expect("a text"));
    assert_eq!(run("encode", &text, ""), Ok(file.clone()));
    assert_eq!(run("round-trip", &table, ""), run("decode", &table, ""));
    let tidy = run("round-trip", &path("bridge.txt"), "").expect("a text with its names");
    assert!(String::from_utf8_lossy(&tidy).contains("\nmessage operator-panel  -> horn            1\n"));
    let tidy_text = written("bridge.tidy", &tidy);
    assert_eq!(run("encode", &tidy_text, ""), Ok(file));
    assert_eq!(run("round-trip", &tidy_text, ""), Ok(tidy));
}

/// By the binary, from the stored listings.
#[test]
fn explanations() {
    let example = path("example.txt");
    assert_eq!(run("listing", &example, ""), Ok(LISTING.as_bytes().to_vec()));
    let without_names = written("example.table", &encode(&three()));
    let cases = [
        (example, "example.listing", EXAMPLE),
        (without_names, "example.listing", WITHOUT_NAMES),
        (path("barrier.txt"), "barrier.listing", BARRIER),
        (path("refused.tbl"), "refused.listing", REFUSED),
    ];
    for (table, listing, explained) in cases {
        let listing = fs::read_to_string(path(listing)).expect("a listing");
        assert_eq!(
            run("explain", &table, &listing),
            Ok(explained.as_bytes().to_vec()),
            "{}",
            table.display()
        );
    }
}

/// The path and the line; one line for each mistake; nothing on standard output.
#[test]
fn reasons() {
    let says = |command: &str, path: &Path, input: &str, reasons: &[&str]| {
        let lines: String = reasons.iter().map(|reason| format!("{}:{reason}\n", path.display())).collect();
        assert_eq!(run(command, path, input), Err(lines));
    };
    let twice =
        fs::read_to_string(path("example.txt")).expect("a text").replace("priority 10", "priority 30");
    let twice = written("priority-twice.txt", twice.as_bytes());
    let priority = "11: expected a priority of its own, found 30 as in line 9 (refusal 7)";
    says("encode", &twice, "", &[priority]);
    says("explain", &twice, "refused 7 66\n", &[priority]);
    let two = written("two-mistakes.txt", b"network five\nprocessor a memory 1\n");
    let number = "1: expected a whole number from 0 to 4294967295 after \"network\", found \"five\"";
    says("encode", &two, "", &[number, "2: expected \"limit\", found the end of the line"]);
    let latin = written("latin.txt", b"# \xFC");
    says("encode", &latin, "", &["1: expected text in UTF-8, found other bytes"]);
    let cut = written("cut.table", &encode(&three())[..30]);
    for command in ["decode", "round-trip"] {
        says(command, &cut, "", &[" refused 1 22: the bytes run out within a record"]);
    }
    let example = path("example.txt");
    says("explain", &example, "found\n", &[" what stands on standard input is not a listing"]);
    says("explain", &example, "refused 7 36\n", &[" the listing is not one of this table"]);
    let usage = Err("usage: table encode|decode|round-trip|listing|explain FILE [NAME]\n".to_string());
    assert_eq!(run("incode", &example, ""), usage);
    let named = Command::new(env!("CARGO_BIN_EXE_table")).arg("encode").arg(&latin).arg("a name").output();
    let said = named.expect("the binary runs").stderr;
    assert_eq!(said, b"a name:1: expected text in UTF-8, found other bytes\n");
    let missing = run("encode", &path("no-such-table"), "").expect_err("no file");
    assert!(missing.contains("no-such-table: "), "{missing}");
}
