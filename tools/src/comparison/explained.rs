//! Takes a listing for people apart. What it says must be the listing that was to be explained, with the names
//! and the limits of the table. All words are written out here: nothing is taken from `explain`.

use crate::model::Table;
use crate::reader::read;
use crate::text::Names;

#[derive(Clone, Debug, PartialEq, Eq)]
pub enum Wrong {
    /// No text, or other paragraphs than a sentence, the tasks and the loads, and the sets.
    Form,
    /// A sentence that is none, or that does not belong to so many sets; a refusal in other words.
    Sentence,
    /// Other columns, or words that do not stand under one another.
    Columns,
    /// A name that no task or processor has, or the name of another task or processor.
    Name,
    Limit,
    Bar,
    /// The listing that it stands for is another one than was printed.
    Facts {
        said: String,
    },
}

/// Whether a placement is found and whether the list is complete; then the sentence if no set is listed, if one
/// is, and if more are, with {} for their number.
type Sentences = (bool, bool, [&'static str; 3]);

const SENTENCES: [Sentences; 4] = [
    (
        true,
        true,
        [
            "Found: this is the first placement that keeps the rules and in which no job is ever late; every \
             earlier one breaks a rule.",
            "Found: this is the first placement that keeps the rules and in which no job is ever late; the set \
             listed cannot share a processor, and every earlier one breaks a rule or has that set on one \
             processor.",
            "Found: this is the first placement that keeps the rules and in which no job is ever late; each of \
             the {} sets listed cannot share a processor, and every earlier one breaks a rule or has such a \
             set on one processor.",
        ],
    ),
    (
        true,
        false,
        [
            "Found: this is the first placement that keeps the rules and in which no job is ever late; no set \
             is listed, but the list is cut: some earlier one keeps the rules and has no set listed on one \
             processor; it is late by another.",
            "Found: this is the first placement that keeps the rules and in which no job is ever late; the set \
             listed cannot share a processor, but the list is cut: some earlier one keeps the rules and has \
             no set listed on one processor; it is late by another.",
            "Found: this is the first placement that keeps the rules and in which no job is ever late; each of \
             the {} sets listed cannot share a processor, but the list is cut: some earlier one keeps the \
             rules and has no set listed on one processor; it is late by another.",
        ],
    ),
    (
        false,
        true,
        [
            "No placement exists: none keeps the rules.",
            "No placement exists: the set listed cannot share a processor, and this rules out every placement \
             that keeps the rules.",
            "No placement exists: each of the {} sets listed cannot share a processor, and together they rule \
             out every placement that keeps the rules.",
        ],
    ),
    (
        false,
        false,
        [
            "No placement exists; no set is listed, but the list is cut: some placement keeps the rules and \
             has no set listed on one processor; it is late by another.",
            "No placement exists; the set listed cannot share a processor, but the list is cut: some placement \
             keeps the rules and has no set listed on one processor; it is late by another.",
            "No placement exists; each of the {} sets listed cannot share a processor, but the list is cut: \
             some placement keeps the rules and has no set listed on one processor; it is late by another.",
        ],
    ),
];

/// By the refusal's number, from 1.
const CAUSES: [&str; 11] = [
    "the bytes run out within a record",
    "an unknown mark",
    "a record earlier in the order than the one before it, or a second network",
    "one more of this kind than allowed",
    "a number outside its range",
    "a task or processor that the file does not have, an empty residence, a group below two, or a message from \
     a task to itself",
    "the priority of an earlier task",
    "a sender and a receiver of different periods",
    "the sender and receiver of an earlier message",
    "a period with which the hyperperiod passes 1,000,000,000",
    "no network, no processor or no task",
];

/// The mark of each record, what people call it, and its length.
const RECORDS: [(&[u8], &str, usize); 6] = [
    (b"NT", "network", 6),
    (b"PR", "processor", 8),
    (b"TK", "task", 22),
    (b"CO", "together", 6),
    (b"EX", "apart", 6),
    (b"MS", "message", 8),
];

/// Whether this explains the listing of this file, as it was printed. Without names of its own a task is called
/// t0, t1, .. and a processor p0, p1, ..
pub fn check(file: &[u8], names: Option<&Names>, listing: &str, explained: &str) -> Result<(), Wrong> {
    let said = match (read(file), names) {
        (Err(_), _) => refused(file, explained)?,
        (Ok(table), Some(names)) => searched(&table, names, explained)?,
        (Ok(table), None) => {
            let numbered = |letter: char, count| (0..count).map(move |number| format!("{letter}{number}"));
            let tasks = numbered('t', table.tasks.len()).collect();
            let processors = numbered('p', table.processors.len()).collect();
            searched(&table, &Names { tasks, processors }, explained)?
        }
    };
    if said == listing { Ok(()) } else { Err(Wrong::Facts { said }) }
}

fn ensure(holds: bool, wrong: Wrong) -> Result<(), Wrong> {
    if holds { Ok(()) } else { Err(wrong) }
}

/// The listing that is explained.
fn searched(table: &Table, names: &Names, explained: &str) -> Result<String, Wrong> {
    let text = explained.strip_suffix('\n').ok_or(Wrong::Form)?;
    let paragraphs: Vec<&str> = text.split("\n\n").collect();
    let (sentence, placement, sets) = match paragraphs[..] {
        [sentence] => (sentence, None, None),
        [sentence, sets] => (sentence, None, Some(sets)),
        [sentence, tasks, loads] => (sentence, Some((tasks, loads)), None),
        [sentence, tasks, loads, sets] => (sentence, Some((tasks, loads)), Some(sets)),
        _ => return Err(Wrong::Form),
    };
    let sets = sets.map_or(Ok(Vec::new()), |sets| conflict_lines(names, sets))?;
    let complete = is_complete(sentence, placement.is_some(), sets.len()).ok_or(Wrong::Sentence)?;
    let (head, tasks, loads) = match placement {
        Some((tasks, loads)) => ("found\n", task_lines(names, tasks)?, load_lines(table, names, loads)?),
        None => ("none\n", String::new(), String::new()),
    };
    let mark = if complete { "complete\n" } else { "cut\n" };
    Ok([head, &tasks, &loads, &sets.concat(), mark].concat())
}

/// The mark that this sentence stands for; none if it is not a sentence for so many sets.
fn is_complete(sentence: &str, found: bool, sets: usize) -> Option<bool> {
    let own = |forms: &[&str; 3]| forms[sets.min(2)].replace("{}", &sets.to_string()) == sentence;
    let form = SENTENCES.iter().find(|(of_found, _, forms)| *of_found == found && own(forms));
    form.map(|(_, complete, _)| *complete)
}

fn number(names: &[String], name: &str) -> Result<usize, Wrong> {
    names.iter().position(|own| own == name).ok_or(Wrong::Name)
}

fn conflict_lines(names: &Names, paragraph: &str) -> Result<Vec<String>, Wrong> {
    let sets = paragraph.strip_prefix("cannot share a processor:\n").ok_or(Wrong::Form)?;
    let line = |line: &str| {
        let tasks = line.strip_prefix("  ").ok_or(Wrong::Form)?.split(", ");
        let numbers = tasks.map(|name| Ok(number(&names.tasks, name)?.to_string()));
        Ok(format!("conflict {}\n", numbers.collect::<Result<Vec<_>, Wrong>>()?.join(" ")))
    };
    sets.split('\n').map(line).collect()
}

/// The words of a line that has so many.
fn words<const N: usize>(line: &str) -> Result<[&str; N], Wrong> {
    let words: Vec<&str> = line.split_whitespace().collect();
    words.try_into().map_err(|_| Wrong::Columns)
}

/// How many signs the longest word of a column has.
fn widest<const N: usize>(rows: &[[&str; N]], column: usize) -> usize {
    rows.iter().map(|row| row[column].chars().count()).max().unwrap_or(0)
}

/// Names stand at the left of columns as wide as the longest; no response or deadline is wider than the word
/// above it. A margin may be, if it is negative: then this word and `beyond` stand at the left.
fn task_lines(names: &Names, paragraph: &str) -> Result<String, Wrong> {
    let rows: Vec<[&str; 5]> = paragraph.split('\n').map(words).collect::<Result<_, _>>()?;
    let [left, right, last] = [0, 1, 4].map(|column| widest(&rows, column));
    let written = |[task, on, time, deadline, margin]: &[&str; 5]| {
        let width = if ["margin", "beyond"].contains(margin) { 0 } else { last };
        format!("{task:<left$}  {on:<right$}  {time:>8}  {deadline:>8}  {margin:>width$}")
    };
    ensure(paragraph.split('\n').eq(rows.iter().map(written)), Wrong::Columns)?;
    ensure(rows[0] == ["task", "processor", "response", "deadline", "margin"], Wrong::Columns)?;
    let line = |(own, [task, on, response, deadline, margin]): (usize, &[&str; 5])| {
        ensure(number(&names.tasks, task)? == own, Wrong::Name)?;
        let on = number(&names.processors, on)?;
        Ok(format!("task {own} on {on} response {response} deadline {deadline} margin {margin}\n"))
    };
    rows[1..].iter().enumerate().map(line).collect()
}

/// A bar stands behind the words, but not behind those of the first line.
fn load_lines(table: &Table, names: &Names, paragraph: &str) -> Result<String, Wrong> {
    let parts: Vec<(&str, &str)> =
        paragraph.split('\n').map(|line| line.split_once("  |").unwrap_or((line, ""))).collect();
    let rows: Vec<[&str; 3]> = parts.iter().map(|(line, _)| words(line)).collect::<Result<_, _>>()?;
    let left = widest(&rows, 0);
    let written = |[name, load, limit]: &[&str; 3]| format!("{name:<left$}  {load:>4}  {limit:>5}");
    ensure(parts.iter().map(|(line, _)| line.to_string()).eq(rows.iter().map(written)), Wrong::Columns)?;
    ensure(rows[0] == ["processor", "load", "limit"] && parts[0].1.is_empty(), Wrong::Columns)?;
    let line = |(own, ([name, load, limit], (_, bar))): (usize, (&[&str; 3], &(&str, &str)))| {
        ensure(number(&names.processors, name)? == own, Wrong::Name)?;
        ensure(*limit == table.processors[own].limit.to_string(), Wrong::Limit)?;
        ensure(is_bar(bar, load), Wrong::Bar)?;
        Ok(format!("load {own} {load}\n"))
    };
    rows[1..].iter().zip(&parts[1..]).enumerate().map(line).collect()
}

/// Forty places for the thousand thousandths: each stands for 25 and is filled by the first of them.
fn is_bar(bar: &str, load: &str) -> bool {
    let is_filled = |place: u32| load.parse::<u32>().is_ok_and(|load| load > 25 * place);
    let places = (0..40).map(|place| if is_filled(place) { '#' } else { ' ' });
    bar.chars().eq(places.chain(['|']))
}

/// The refusal with the first two numbers of the text, in full.
fn refused(file: &[u8], explained: &str) -> Result<String, Wrong> {
    let mut numbers =
        explained.split(|sign: char| !sign.is_ascii_digit()).filter_map(|word| word.parse().ok());
    let (number, place): (usize, usize) = numbers.next().zip(numbers.next()).ok_or(Wrong::Form)?;
    let cause = number.checked_sub(1).and_then(|index| CAUSES.get(index)).ok_or(Wrong::Sentence)?;
    let what = match number {
        11 => format!("at its end, after {place} bytes"),
        _ => format!("at byte {place}, {}", record(file, place)),
    };
    let sentence = format!("The file is refused, number {number}, {what}: {cause}.\n");
    ensure(explained == sentence, Wrong::Sentence)?;
    Ok(format!("refused {number} {place}\n"))
}

/// The record at this place with its number among those of its kind.
fn record(file: &[u8], place: usize) -> String {
    let (mut at, mut counts) = (0, [0; 6]);
    let kind_at = |at: usize| {
        RECORDS.iter().position(|(mark, ..)| file.get(at..).is_some_and(|rest| rest.starts_with(mark)))
    };
    while at < place
        && let Some(kind) = kind_at(at)
    {
        counts[kind] += 1;
        at += RECORDS[kind].2;
    }
    match kind_at(at) {
        Some(kind) if at == place => format!("{} {} (the first is 0)", RECORDS[kind].1, counts[kind]),
        _ => "which is no record".to_string(),
    }
}
