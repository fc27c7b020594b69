//! Tables as text: round trips, and mistakes with their lines.

use tools::file;
use tools::generate::crowded::small_table;
use tools::generate::names::own_names;
use tools::generate::tables::{Shape, table};
use tools::model::{Message, Refusal, Table};
use tools::random::Random;
use tools::reader::read;
use tools::text::sheet::encode;
use tools::text::write::write;
use tools::text::{Mistake, Names, is_text, of_bytes};

/// A table of any shape, of the largest, or a small one with a load around 1.
fn generated(random: &mut Random, number: usize) -> Table {
    match number % 8 {
        0 => table(random, Shape::FULL),
        1 | 2 => small_table(random),
        _ => {
            let shape = Shape::random(random);
            table(random, shape)
        }
    }
}

/// Text to file to text to file: the same file. The text is also the same, as the names are.
#[test]
fn round_trips() {
    let mut random = Random::new(20);
    for number in 0..4_000 {
        let table = generated(&mut random, number);
        let (bytes, names) = (file::encode(&table), Names::made_up(&table));
        let text = write(&table, &names);
        let (encoded, given) = encode(&text).unwrap_or_else(|mistakes| panic!("{mistakes:?}\n{text}"));
        assert_eq!((&encoded, &given), (&bytes, &names), "{text}");
        assert_eq!(write(&read(&encoded).expect("a table"), &given), text);
        assert!(is_text(text.as_bytes()) && !is_text(&bytes));
    }
}

/// The lines in another order of kinds, with comments, empty lines and blanks, and `on any` written out.
fn rewritten(random: &mut Random, text: &str) -> String {
    let mut kinds: Vec<&str> = vec!["network", "processor", "task", "together", "apart", "message"];
    random.shuffle(&mut kinds);
    let mut lines = Vec::new();
    for kind in kinds {
        for line in text.lines().filter(|line| line.starts_with(kind)) {
            let on_any = kind == "task" && !line.contains(" on ");
            lines.push(format!(" \t{line}{} # {kind}", if on_any { " on  any" } else { "" }));
            lines.extend(
                ["# task x", "", "   "].into_iter().filter(|_| random.once_in(3)).map(str::to_string),
            );
        }
    }
    lines.join(random.pick(&["\n", "\r\n"]))
}

#[test]
fn the_order_of_kinds_comments_and_blanks_are_free() {
    let mut random = Random::new(21);
    for number in 0..1_000 {
        let table = generated(&mut random, number);
        let names = own_names(&mut random, &table);
        let text = rewritten(&mut random, &write(&table, &names));
        assert_eq!(encode(&text), Ok((file::encode(&table), names)), "{text}");
    }
}

/// Ten lines with every kind among them.
const SOUND: [&str; 10] = [
    "# two tasks on two cards",
    "network 5",
    "processor a memory 100 limit 1000",
    "processor b memory 100 limit 900",
    "task x takes 1 every 4 within 4 memory 10 priority 30 on a",
    "task y takes 2 every 4 within 3 memory 10 priority 20",
    "together x y",
    "apart x y",
    "message x -> y 6",
    "task z takes 2 every 6 within 6 memory 10 priority 10 on any",
];

/// The sound text with another line in place of one.
fn damaged(line: usize, instead: &str) -> String {
    let mut lines = SOUND;
    lines[line - 1] = instead;
    lines.join("\n")
}

fn has_mistakes(text: &str, mistakes: &[(usize, &str)]) {
    let expected = mistakes.iter().map(|&(line, what)| Mistake { line, what: what.to_string() }).collect();
    assert_eq!(encode(text), Err(expected), "{text}");
}

fn each_has_its_mistake(cases: &[(usize, &str, &str)]) {
    assert!(encode(&SOUND.join("\n")).is_ok());
    for &(line, instead, what) in cases {
        has_mistakes(&damaged(line, instead), &[(line, what)]);
    }
}

const NAME: &str = "(letters, digits, - _ . and first a letter, but not any)";
const KINDS: &str = "expected network, processor, task, together, apart or message, found ";

#[test]
fn words_that_do_not_belong() {
    each_has_its_mistake(&[
        (1, "two tasks", &format!("{KINDS}\"two\"")),
        (2, "Network 5", &format!("{KINDS}\"Network\"")),
        (2, "network 5 6", "expected the end of the line, found \"6\""),
        (3, "processor a limit 1000 memory 100", "expected \"memory\", found \"limit\""),
        (4, "processor b memory 100 limit 900 on a", "expected the end of the line, found \"on\""),
        (5, "task x takes 1 evry 4", "expected \"every\", found \"evry\""),
        (5, "task x 1 4 4 10 30", "expected \"takes\", found \"1\""),
        (6, "task y takes 2 every 4 within 3 memory 10 priority 20 at a", "expected \"on\", found \"at\""),
        (
            6,
            "task y takes 2 every 4 within 3 memory 10 priority 20 on any b",
            "expected the end of the line, found \"b\"",
        ),
        (9, "message x y 6", "expected \"->\", found \"y\""),
        (9, "message x -> y 6 7", "expected the end of the line, found \"7\""),
    ]);
}

#[test]
fn missing_parts() {
    let end = "found the end of the line";
    each_has_its_mistake(&[
        (2, "network", &format!("expected a whole number from 0 to 4294967295 after \"network\", {end}")),
        (2, "network # 5", &format!("expected a whole number from 0 to 4294967295 after \"network\", {end}")),
        (3, "processor", &format!("expected a name for the processor {NAME}, {end}")),
        (3, "processor a memory 100", &format!("expected \"limit\", {end}")),
        (5, "task", &format!("expected a name for the task {NAME}, {end}")),
        (5, "task x takes 1 every 4 within 4 memory 10", &format!("expected \"priority\", {end}")),
        (
            5,
            "task x takes 1 every 4 within 4 memory 10 priority 30 on",
            &format!("expected any or the name of a processor {NAME}, {end}"),
        ),
        (
            7,
            "together x",
            &format!("expected the names of two tasks or more after \"together\" {NAME}, {end}"),
        ),
        (8, "apart", &format!("expected the names of two tasks or more after \"apart\" {NAME}, {end}")),
        (9, "message x ->", &format!("expected the name of a task {NAME}, {end}")),
        (9, "message x -> y", &format!("expected a whole number from 1 to 1000000 after \"y\", {end}")),
    ]);
}

#[test]
fn numbers_of_another_form() {
    let number = |low, high, after: &str, found| {
        format!("expected a whole number from {low} to {high} after \"{after}\", found \"{found}\"")
    };
    let task = |execution, memory, priority| {
        format!("task x takes {execution} every 4 within 4 memory {memory} priority {priority}")
    };
    each_has_its_mistake(&[
        (2, "network -1", &number(0, u32::MAX, "network", "-1")),
        (2, "network 4294967296", &number(0, u32::MAX, "network", "4294967296")),
        (2, "network 99999999999999999999999", &number(0, u32::MAX, "network", "99999999999999999999999")),
        (3, "processor a memory 1.5 limit 1000", &number(0, u32::MAX, "memory", "1.5")),
        (3, "processor a memory 100 limit 0", &number(1, 1000, "limit", "0")),
        (4, "processor b memory 100 limit 1001", &number(1, 1000, "limit", "1001")),
        (5, &task("0", "10", "30"), &number(1, 1_000_000, "takes", "0")),
        (5, &task("+1", "10", "30"), &number(1, 1_000_000, "takes", "+1")),
        (5, &task("1", "10", "65536"), &number(0, 65_535, "priority", "65536")),
        (5, &task("1", "ten", "30"), &number(0, u32::MAX, "memory", "ten")),
        (6, "task y takes 2 every 1000001 within 3", &number(1, 1_000_000, "every", "1000001")),
        (9, "message x -> y 0", &number(1, 1_000_000, "y", "0")),
        (9, "message x -> y 1000001", &number(1, 1_000_000, "y", "1000001")),
    ]);
}

#[test]
fn names_of_another_form() {
    each_has_its_mistake(&[
        (
            3,
            "processor 1a memory 100 limit 1000",
            &format!("expected a name for the processor {NAME}, found \"1a\""),
        ),
        (
            4,
            "processor any memory 100 limit 900",
            &format!("expected a name for the processor {NAME}, found \"any\""),
        ),
        (
            5,
            "task x takes 1 every 4 within 4 memory 10 priority 30 on a any",
            &format!("expected the name of a processor {NAME}, found \"any\""),
        ),
        (
            7,
            "together x, y",
            &format!("expected the names of two tasks or more after \"together\" {NAME}, found \"x,\""),
        ),
    ]);
}

#[test]
fn names_unknown_or_twice() {
    let unknown = |what: &str, name: &str| {
        format!("expected the name of a {what}, found \"{name}\", which no {what} has")
    };
    let again = |what: &str, name: &str| format!("expected another {what}, found \"{name}\" a second time");
    each_has_its_mistake(&[
        (4, "processor a memory 1 limit 1", "expected a name of its own, found \"a\" as in line 3"),
        (
            10,
            "task x takes 2 every 6 within 6 memory 10 priority 10",
            "expected a name of its own, found \"x\" as in line 5",
        ),
        (
            10,
            "task b takes 2 every 6 within 6 memory 10 priority 10",
            "expected a name of its own, found \"b\" as in line 4",
        ),
        (5, "task x takes 1 every 4 within 4 memory 10 priority 30 on c", &unknown("processor", "c")),
        (5, "task x takes 1 every 4 within 4 memory 10 priority 30 on a y", &unknown("processor", "y")),
        (5, "task x takes 1 every 4 within 4 memory 10 priority 30 on a b a", &again("processor", "a")),
        (7, "together x w", &unknown("task", "w")),
        (8, "apart x a", &unknown("task", "a")),
        (8, "apart x y x", &again("task", "x")),
        (9, "message w -> y 6", &unknown("task", "w")),
        (9, "message x -> x 6", &again("task", "x")),
    ]);
    // The later line has the mistake, also where its record comes first in the file.
    let text = format!("task a takes 1 every 4 within 4 memory 1 priority 9\n{}", SOUND.join("\n"));
    has_mistakes(&text, &[(4, "expected a name of its own, found \"a\" as in line 1")]);
}

#[test]
fn what_the_reader_refuses() {
    each_has_its_mistake(&[
        (
            6,
            "task y takes 5 every 8 within 4 memory 10 priority 20",
            "expected takes <= within <= every, found takes 5, within 4, every 8 (refusal 5)",
        ),
        (
            6,
            "task y takes 1 every 4 within 5 memory 10 priority 20",
            "expected takes <= within <= every, found takes 1, within 5, every 4 (refusal 5)",
        ),
        (
            10,
            "task z takes 2 every 6 within 6 memory 10 priority 30",
            "expected a priority of its own, found 30 as in line 5 (refusal 7)",
        ),
        (9, "message x -> z 6", "expected tasks of one period, found x every 4 and z every 6 (refusal 8)"),
    ]);
    let twice = "expected one message from x to y, found another in line 8 (refusal 9)";
    has_mistakes(&damaged(8, "message x -> y 7"), &[(9, twice)]);
    let far = damaged(6, "task y takes 2 every 1000000 within 3 memory 10 priority 20")
        .replace("every 6", "every 1001");
    let multiple = "expected periods with a least common multiple of at most 1000000000, \
                    found every 1001 after those of the earlier tasks (refusal 10)";
    has_mistakes(&far, &[(10, multiple)]);
}

/// The mistakes of one sort come together, and a sort only if there are none of the sorts before it.
#[test]
fn several_mistakes() {
    let missing = |word| format!("expected a line that begins with \"{word}\", found the end of the text");
    let [network, processor, task] = ["network", "processor", "task"].map(missing);
    has_mistakes("", &[(1, &network), (1, &processor), (1, &task)]);
    has_mistakes("# nothing\n\n", &[(3, &network), (3, &processor), (3, &task)]);
    has_mistakes(&damaged(2, ""), &[(11, &network)]);
    has_mistakes(&damaged(8, "network 6"), &[(8, "expected at most 1 of \"network\", found one more")]);
    let words = ["expected \"memory\", found \"mem\"", "expected \"->\", found \"to\""];
    let forms = damaged(9, "message w to y 6").replace("b memory", "b mem");
    has_mistakes(&forms, &[(4, words[0]), (9, words[1])]);
}

/// Nine processors, 25 tasks, 17 groups of a kind and 65 messages: the last line of each is one too many.
#[test]
fn one_too_many() {
    let sound = [SOUND.join("\n"), String::new()].join("\n");
    let lines = |count: usize, line: &dyn Fn(usize) -> String| (0..count).map(line).collect::<String>();
    let task =
        |number| format!("task t{number} takes 1 every 4 within 4 memory 1 priority {}\n", 100 + number);
    let cases = [
        (lines(7, &|number| format!("processor p{number} memory 1 limit 1\n")), 17, "8 of \"processor\""),
        (lines(22, &task), 32, "24 of \"task\""),
        (lines(16, &|_| "together x y\n".to_string()), 26, "16 of \"together\""),
        (lines(16, &|_| "apart x y\n".to_string()), 26, "16 of \"apart\""),
        (lines(64, &|_| "message x -> y 1\n".to_string()), 74, "64 of \"message\""),
    ];
    for (more, line, most) in cases {
        let what = format!("expected at most {most}, found one more");
        has_mistakes(&format!("{sound}{more}"), &[(line, &what)]);
    }
}

/// The first 512 bytes decide; a byte that is no text behind them is a mistake in its line.
#[test]
fn texts_and_table_files() {
    let with = |place: usize, byte: u8| {
        let mut text = SOUND.join("\n").into_bytes();
        text.resize(600, b'#');
        text[place] = byte;
        text
    };
    for place in [0, 13, 511] {
        for byte in [0, 1, 8, 11, 27, 31] {
            assert!(!is_text(&with(place, byte)), "{byte} at {place}");
        }
        for byte in [b'\t', b'\n', b'\r', b' ', 127, 128, 255] {
            assert!(is_text(&with(place, byte)), "{byte} at {place}");
        }
    }
    assert!(is_text(&with(512, 0)) && is_text(b"\n") && !is_text(b""));
    let escape = [SOUND[..6].join("\n"), "together x \u{1b}[2J".to_string()].join("\n");
    let what =
        format!("expected the names of two tasks or more after \"together\" {NAME}, found \"\\u{{1b}}[2J\"");
    has_mistakes(&escape, &[(7, &what)]);
}

#[test]
fn bytes_that_are_no_text() {
    let what = "expected text in UTF-8, found other bytes".to_string();
    assert_eq!(of_bytes(b"network 5\n# \xC3\xBC\n# \xFC"), Err(Mistake { line: 3, what }));
    assert_eq!(of_bytes(b"network 5"), Ok("network 5"));
    assert_eq!(of_bytes(b"\xEF\xBB\xBFnetwork 5"), Ok("network 5"));
}

/// A word that can stand nowhere, put anywhere: a mistake of form in that line and in no other.
#[test]
fn a_wrong_word_anywhere() {
    let mut random = Random::new(22);
    for number in 0..3_000 {
        let table = generated(&mut random, number);
        let text = write(&table, &Names::made_up(&table));
        let mut lines: Vec<String> = text.lines().map(str::to_string).collect();
        let line = random.below(lines.len());
        let mut words: Vec<&str> = lines[line].split_whitespace().collect();
        words.insert(random.below(words.len() + 1), "?");
        lines[line] = words.join(" ");
        let mistakes = encode(&lines.join("\n")).expect_err("a wrong word");
        assert_eq!(mistakes.iter().map(|mistake| mistake.line).collect::<Vec<_>>(), [line + 1]);
        assert!(mistakes[0].what.ends_with("found \"?\""), "{mistakes:?}");
    }
}

/// Changes that a text can have and the reader refuses.
fn spoil(random: &mut Random, table: &mut Table) {
    let tasks = table.tasks.len();
    let (one, other) = (random.below(tasks), random.below(tasks));
    let message = Message { sender: one as u8, receiver: other as u8, amount: 1 };
    match random.below(4) {
        0 => table.tasks[one].execution = 1_000_000,
        1 => table.tasks[one].priority = table.tasks[other].priority,
        2 => table.tasks[one].period = 999_983,
        _ if one != other => table.messages.push(message),
        _ => {}
    }
}

/// A table's text has one line for each record, so the refused record's number gives the line.
#[test]
fn refused_records_are_reported_by_their_lines() {
    let mut random = Random::new(23);
    let mut refused = [0; 16];
    for number in 0..6_000 {
        let mut table = generated(&mut random, number);
        spoil(&mut random, &mut table);
        let Err(Refusal { cause, place }) = read(&file::encode(&table)) else {
            continue;
        };
        let ends = file::records(&table).into_iter().scan(0, |end, record| {
            *end += record.len();
            Some(*end)
        });
        let line = 1 + ends.take_while(|&end| end <= place).count();
        let mistakes = encode(&write(&table, &Names::made_up(&table))).expect_err("a refused table");
        assert_eq!(mistakes.iter().map(|mistake| mistake.line).collect::<Vec<_>>(), [line]);
        refused[cause as usize] += 1;
    }
    for cause in [5, 7, 8, 9, 10] {
        assert!(refused[cause] >= 50, "{cause} hardly occurs: {refused:?}");
    }
}
