//! The lines of a text as one table. They may stand in any order; the file has them by kind, and within a
//! kind as they stand.

use super::line::{Entry, On, keyword, parse};
use super::{Mistake, Names};
use crate::file::File;
use crate::model::*;
use crate::reader::read;

/// A line that is neither empty nor a comment.
struct Line<'a> {
    number: usize,
    entry: Entry<'a>,
}

/// The lines in the order of the file's records. Every name is given once, and every name used is given.
pub struct Sheet<'a> {
    lines: Vec<Line<'a>>,
    pub names: Names,
}

/// How many lines of each kind a text has, at least and at most.
const COUNTS: [(Kind, usize, usize); 6] = [
    (Kind::Network, 1, 1),
    (Kind::Processor, 1, MOST_PROCESSORS),
    (Kind::Task, 1, MOST_TASKS),
    (Kind::CoResident, 0, MOST_GROUPS),
    (Kind::Exclusive, 0, MOST_GROUPS),
    (Kind::Message, 0, MOST_MESSAGES),
];

/// The table file that a text stands for, and the names. Else its mistakes: those in the form of lines; if
/// there are none, those in the number of lines and the names that they give; then in the names that they
/// use; and last what the reader refuses.
pub fn encode(text: &str) -> Result<(Vec<u8>, Names), Vec<Mistake>> {
    let sheet = Sheet::of(text)?;
    let file = sheet.file();
    match read(&file) {
        Ok(_) => Ok((file, sheet.names)),
        Err(refusal) => Err(vec![sheet.refused(refusal)]),
    }
}

/// All values, or all mistakes in the order of their lines.
fn all<T>(results: impl Iterator<Item = Result<T, Mistake>>) -> Result<Vec<T>, Vec<Mistake>> {
    let (mut values, mut mistakes) = (Vec::new(), Vec::new());
    for result in results {
        match result {
            Ok(value) => values.push(value),
            Err(mistake) => mistakes.push(mistake),
        }
    }
    mistakes.sort_by_key(|mistake| mistake.line);
    if mistakes.is_empty() { Ok(values) } else { Err(mistakes) }
}

fn parsed(number: usize, line: &str) -> Result<Option<Line<'_>>, Mistake> {
    match parse(line) {
        Ok(entry) => Ok(entry.map(|entry| Line { number, entry })),
        Err(what) => Err(Mistake { line: number, what }),
    }
}

impl<'a> Sheet<'a> {
    /// The sheet of a text, before the reader has seen its file.
    pub fn of(text: &'a str) -> Result<Sheet<'a>, Vec<Mistake>> {
        let numbered = text.lines().enumerate().map(|(index, line)| (index + 1, line));
        let lines = all(numbered.map(|(number, line)| parsed(number, line)))?;
        let mut lines: Vec<Line> = lines.into_iter().flatten().collect();
        lines.sort_by_key(|line| line.entry.kind());
        let names = Names { tasks: given(&lines, Kind::Task), processors: given(&lines, Kind::Processor) };
        let sheet = Sheet { lines, names };
        let end = text.lines().count() + 1;
        let counts = COUNTS.iter().map(|&(kind, least, most)| sheet.counted(kind, least, most, end));
        all(counts.chain(sheet.lines.iter().map(|line| sheet.given_once(line))))?;
        all(sheet.lines.iter().map(|line| sheet.names_given(line)))?;
        Ok(sheet)
    }

    fn counted(&self, kind: Kind, least: usize, most: usize, end: usize) -> Result<(), Mistake> {
        let word = keyword(kind);
        let of_kind: Vec<&Line> = self.lines.iter().filter(|line| line.entry.kind() == kind).collect();
        if let Some(line) = of_kind.get(most) {
            let what = format!("expected at most {most} of \"{word}\", found one more");
            Err(Mistake { line: line.number, what })
        } else if of_kind.len() < least {
            let what = format!("expected a line that begins with \"{word}\", found the end of the text");
            Err(Mistake { line: end, what })
        } else {
            Ok(())
        }
    }

    /// A name is that of one task or of one processor.
    fn given_once(&self, line: &Line) -> Result<(), Mistake> {
        let Some(name) = line.entry.given_name() else {
            return Ok(());
        };
        let giving = self.lines.iter().filter(|other| other.entry.given_name() == Some(name));
        match giving.map(|other| other.number).find(|&other| other < line.number) {
            Some(other) => {
                let what = format!("expected a name of its own, found \"{name}\" as in line {other}");
                Err(Mistake { line: line.number, what })
            }
            None => Ok(()),
        }
    }

    /// Every name that the line uses is given, and stands in it once.
    fn names_given(&self, line: &Line) -> Result<(), Mistake> {
        let (used, names, what) = match &line.entry {
            Entry::Task { on: On::These(used), .. } => (used.clone(), &self.names.processors, "processor"),
            Entry::Together { tasks } | Entry::Apart { tasks } => (tasks.clone(), &self.names.tasks, "task"),
            Entry::Message { sender, receiver, .. } => (vec![*sender, *receiver], &self.names.tasks, "task"),
            _ => return Ok(()),
        };
        let mistake = |what| Err(Mistake { line: line.number, what });
        for (place, name) in used.iter().enumerate() {
            if !names.iter().any(|given| given == name) {
                return mistake(format!(
                    "expected the name of a {what}, found \"{name}\", which no {what} has"
                ));
            }
            if used[..place].contains(name) {
                return mistake(format!("expected another {what}, found \"{name}\" a second time"));
            }
        }
        Ok(())
    }

    /// The records of all lines, whether or not the reader takes them.
    pub fn file(&self) -> Vec<u8> {
        self.lines.iter().flat_map(|line| self.record(&line.entry)).collect()
    }

    fn record(&self, entry: &Entry) -> Vec<u8> {
        let task = |name: &str| number(&self.names.tasks, name) as u8;
        let group = |tasks: &[&str]| mask(&self.names.tasks, tasks);
        let file = match entry {
            Entry::Network { capacity } => File::new().network(*capacity),
            Entry::Processor { processor, .. } => File::new().processor(*processor),
            Entry::Task { task, on, .. } => File::new().task(Task { residence: self.residence(on), ..*task }),
            Entry::Together { tasks } => File::new().co_resident(group(tasks)),
            Entry::Apart { tasks } => File::new().exclusive(group(tasks)),
            Entry::Message { sender, receiver, amount } => {
                let (sender, receiver) = (task(sender), task(receiver));
                File::new().message(Message { sender, receiver, amount: *amount })
            }
        };
        file.bytes
    }

    fn residence(&self, on: &On) -> u16 {
        match on {
            On::Any => (1 << self.names.processors.len()) - 1,
            On::These(processors) => mask(&self.names.processors, processors) as u16,
        }
    }

    /// The line of the refused record, and the reason.
    fn refused(&self, refusal: Refusal) -> Mistake {
        let mut end = 0;
        let ends_behind = |line: &Line| {
            end += line.entry.kind().length();
            end > refusal.place
        };
        let index = self.lines.iter().position(ends_behind).expect("a record of the sheet is refused");
        let (line, cause) = (&self.lines[index], refusal.cause);
        let reason = reason(&line.entry, &self.lines[..index], cause);
        Mistake { line: line.number, what: format!("{reason} (refusal {})", cause as u8) }
    }
}

fn given(lines: &[Line], kind: Kind) -> Vec<String> {
    let of_kind = lines.iter().filter(|line| line.entry.kind() == kind);
    of_kind.filter_map(|line| line.entry.given_name()).map(str::to_string).collect()
}

fn number(names: &[String], name: &str) -> usize {
    names.iter().position(|given| given == name).expect("every name used is given")
}

fn mask(names: &[String], members: &[&str]) -> u32 {
    members.iter().fold(0, |mask, name| mask | 1 << number(names, name))
}

/// Why the reader refuses this line after the earlier ones. A sheet leaves few causes to it.
fn reason(entry: &Entry, earlier: &[Line], cause: Cause) -> String {
    match (entry, cause) {
        (Entry::Task { task, .. }, Cause::OutOfRange) => {
            let Task { execution, deadline, period, .. } = task;
            let found = format!("takes {execution}, within {deadline}, every {period}");
            format!("expected takes <= within <= every, found {found}")
        }
        (Entry::Task { task: Task { priority, .. }, .. }, Cause::PriorityUsed) => {
            let same = |task: &Task| task.priority == *priority;
            let line = first(earlier, |other| matches!(other, Entry::Task { task, .. } if same(task)));
            format!("expected a priority of its own, found {priority} as in line {line}")
        }
        (Entry::Task { task: Task { period, .. }, .. }, Cause::HyperperiodTooLarge) => {
            let most = format!("a least common multiple of at most {LARGEST_HYPERPERIOD}");
            format!("expected periods with {most}, found every {period} after those of the earlier tasks")
        }
        (Entry::Message { sender, receiver, .. }, Cause::PeriodsDiffer) => {
            let [one, other] = [sender, receiver].map(|name| period(earlier, name));
            format!("expected tasks of one period, found {sender} every {one} and {receiver} every {other}")
        }
        (Entry::Message { sender, receiver, .. }, Cause::PairRepeated) => {
            let same = |other: &Entry| match other {
                Entry::Message { sender: from, receiver: to, .. } => (from, to) == (sender, receiver),
                _ => false,
            };
            let line = first(earlier, same);
            format!("expected one message from {sender} to {receiver}, found another in line {line}")
        }
        _ => cause.words().to_string(),
    }
}

/// The number of the first line that passes the test.
fn first(lines: &[Line], test: impl Fn(&Entry) -> bool) -> usize {
    lines.iter().find(|line| test(&line.entry)).expect("what the reader met before").number
}

fn period(lines: &[Line], name: &str) -> u32 {
    let period = |line: &Line| match line.entry {
        Entry::Task { name: given, task, .. } if given == name => Some(task.period),
        _ => None,
    };
    lines.iter().find_map(period).expect("every name used is given")
}
