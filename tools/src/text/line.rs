//! The form of one line: its words, its numbers and how a name is written.

use crate::model::*;
use std::iter::Peekable;
use std::str::SplitWhitespace;

/// What a line says, with the names as they stand.
#[derive(Clone, Debug)]
pub enum Entry<'a> {
    Network { capacity: u32 },
    Processor { name: &'a str, processor: Processor },
    Task { name: &'a str, task: Task, on: On<'a> },
    Together { tasks: Vec<&'a str> },
    Apart { tasks: Vec<&'a str> },
    Message { sender: &'a str, receiver: &'a str, amount: u32 },
}

/// Where a task may stand.
#[derive(Clone, Debug)]
pub enum On<'a> {
    Any,
    These(Vec<&'a str>),
}

impl Entry<'_> {
    pub fn kind(&self) -> Kind {
        match self {
            Entry::Network { .. } => Kind::Network,
            Entry::Processor { .. } => Kind::Processor,
            Entry::Task { .. } => Kind::Task,
            Entry::Together { .. } => Kind::CoResident,
            Entry::Apart { .. } => Kind::Exclusive,
            Entry::Message { .. } => Kind::Message,
        }
    }

    /// The name that this line gives to its task or processor.
    pub fn given_name(&self) -> Option<&str> {
        match self {
            Entry::Processor { name, .. } | Entry::Task { name, .. } => Some(name),
            _ => None,
        }
    }
}

/// The word with which a line of this kind begins.
pub fn keyword(kind: Kind) -> &'static str {
    match kind {
        Kind::Network => "network",
        Kind::Processor => "processor",
        Kind::Task => "task",
        Kind::CoResident => "together",
        Kind::Exclusive => "apart",
        Kind::Message => "message",
    }
}

/// What a line says; nothing if it is empty or a comment. A mistake is what was expected and what was found.
pub fn parse(line: &str) -> Result<Option<Entry<'_>>, String> {
    let without_comment = line.split('#').next().unwrap_or_default();
    let mut words = Words { rest: without_comment.split_whitespace().peekable() };
    let Some(first) = words.rest.next() else {
        return Ok(None);
    };
    let entry = match first {
        "network" => Entry::Network { capacity: words.number(first, 0, u32::MAX)? },
        "processor" => words.processor()?,
        "task" => words.task()?,
        "together" => Entry::Together { tasks: words.group(first)? },
        "apart" => Entry::Apart { tasks: words.group(first)? },
        "message" => words.message()?,
        _ => return Err(expected("network, processor, task, together, apart or message", Some(first))),
    };
    words.end()?;
    Ok(Some(entry))
}

/// What is found is escaped, so that no control characters reach a terminal.
fn expected(what: &str, found: Option<&str>) -> String {
    match found {
        Some(word) => format!("expected {what}, found {word:?}"),
        None => format!("expected {what}, found the end of the line"),
    }
}

/// The words of a line that are not taken yet.
struct Words<'a> {
    rest: Peekable<SplitWhitespace<'a>>,
}

impl<'a> Words<'a> {
    fn processor(&mut self) -> Result<Entry<'a>, String> {
        let name = self.name("a name for the processor")?;
        let memory = self.field("memory", 0, u32::MAX)?;
        let limit = self.field("limit", 1, LARGEST_LIMIT.into())? as u16;
        Ok(Entry::Processor { name, processor: Processor { memory, limit } })
    }

    /// The residence is made of the names later.
    fn task(&mut self) -> Result<Entry<'a>, String> {
        let name = self.name("a name for the task")?;
        let task = Task {
            execution: self.field("takes", 1, LONGEST_PERIOD)?,
            period: self.field("every", 1, LONGEST_PERIOD)?,
            deadline: self.field("within", 1, LONGEST_PERIOD)?,
            memory: self.field("memory", 0, u32::MAX)?,
            priority: self.field("priority", 0, u16::MAX.into())? as u16,
            residence: 0,
        };
        Ok(Entry::Task { name, task, on: self.on()? })
    }

    fn message(&mut self) -> Result<Entry<'a>, String> {
        let sender = self.name("the name of a task")?;
        self.word("->")?;
        let receiver = self.name("the name of a task")?;
        Ok(Entry::Message { sender, receiver, amount: self.number(receiver, 1, LARGEST_AMOUNT)? })
    }

    fn group(&mut self, keyword: &str) -> Result<Vec<&'a str>, String> {
        let expected = format!("the names of two tasks or more after \"{keyword}\"");
        let mut tasks = vec![self.name(&expected)?, self.name(&expected)?];
        self.more_names(&mut tasks, "the name of a task")?;
        Ok(tasks)
    }

    /// `on` and processors, `on any`, or nothing, which means the same.
    fn on(&mut self) -> Result<On<'a>, String> {
        if self.rest.peek().is_none() {
            return Ok(On::Any);
        }
        self.word("on")?;
        if self.rest.next_if_eq(&"any").is_some() {
            return Ok(On::Any);
        }
        let mut processors = vec![self.name("any or the name of a processor")?];
        self.more_names(&mut processors, "the name of a processor")?;
        Ok(On::These(processors))
    }

    fn more_names(&mut self, names: &mut Vec<&'a str>, what: &str) -> Result<(), String> {
        while self.rest.peek().is_some() {
            names.push(self.name(what)?);
        }
        Ok(())
    }

    /// A keyword and its number.
    fn field(&mut self, keyword: &str, low: u32, high: u32) -> Result<u32, String> {
        self.word(keyword)?;
        self.number(keyword, low, high)
    }

    fn word(&mut self, word: &str) -> Result<(), String> {
        match self.rest.next() {
            Some(found) if found == word => Ok(()),
            other => Err(expected(&format!("\"{word}\""), other)),
        }
    }

    fn number(&mut self, after: &str, low: u32, high: u32) -> Result<u32, String> {
        let word = self.rest.next();
        let digits = word.filter(|word| word.bytes().all(|byte| byte.is_ascii_digit()));
        let number = digits.and_then(|digits| digits.parse().ok());
        let what = || format!("a whole number from {low} to {high} after \"{after}\"");
        number.filter(|number| (low..=high).contains(number)).ok_or_else(|| expected(&what(), word))
    }

    /// A name begins with a letter, so none can be taken for a number or an arrow; `any` is all processors.
    fn name(&mut self, what: &str) -> Result<&'a str, String> {
        let word = self.rest.next();
        let fits = |other: char| other.is_alphanumeric() || "-_.".contains(other);
        let is_name =
            |word: &&str| word.starts_with(char::is_alphabetic) && word.chars().all(fits) && *word != "any";
        let rule = "letters, digits, - _ . and first a letter, but not any";
        word.filter(is_name).ok_or_else(|| expected(&format!("{what} ({rule})"), word))
    }

    fn end(&mut self) -> Result<(), String> {
        self.rest.next().map_or(Ok(()), |more| Err(expected("the end of the line", Some(more))))
    }
}
