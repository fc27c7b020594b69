//! An independent judgement of placements, written from 01 "Judging a placement".

use crate::margin::{Margin, margins};
use crate::model::{Cause, MOST_TASKS, Refusal, Table};
use crate::reader::read;
use crate::schedule::{members, response};

#[derive(Clone, Copy, Debug, PartialEq, Eq, PartialOrd, Ord)]
pub enum Rule {
    Residence = 101,
    CoResidence = 102,
    Exclusion = 103,
    Memory = 104,
    Utilisation = 105,
    Network = 106,
    Deadline = 107,
}

/// In the order in which they are examined.
pub const RULES: [Rule; 7] = [
    Rule::Residence,
    Rule::CoResidence,
    Rule::Exclusion,
    Rule::Memory,
    Rule::Utilisation,
    Rule::Network,
    Rule::Deadline,
];

#[derive(Clone, Debug, PartialEq, Eq)]
pub struct Judgement {
    /// The first broken rule with the lowest number concerned.
    pub broken: Option<(Rule, usize)>,
    /// 0 beyond the tasks of the table.
    pub responses: [u32; MOST_TASKS],
    /// A known 0 beyond the tasks of the table.
    pub margins: [Margin; MOST_TASKS],
}

/// A judgement, or why there is none.
pub type Judged = Result<Judgement, Refusal>;

pub fn judge(file: &[u8], placement: &[u8]) -> Judged {
    let table = read(file)?;
    let placed = Placed::of(&table, placement)?;
    let mut responses = [0; MOST_TASKS];
    for (task, answer) in responses.iter_mut().take(placement.len()).enumerate() {
        *answer = placed.response(task);
    }
    Ok(Judgement { broken: placed.first_broken(), responses, margins: placed.margins() })
}

/// The one number of the C entry: the refusal's, or 0, or the broken rule's. It needs no margins, and these
/// take long.
pub fn judge_number(file: &[u8], placement: &[u8]) -> u16 {
    let broken = |table| Ok(Placed::of(&table, placement)?.first_broken());
    match read(file).and_then(broken) {
        Err(refusal) => refusal.cause as u16,
        Ok(broken) => broken.map_or(0, |(rule, _)| rule as u16),
    }
}

/// The C entry that hands back the whole judgement: into `out` the number, what it concerns, the response of
/// each task and then the margin of each. What comes back is the count of places written, or a refusal's code,
/// and then nothing is written.
pub fn judge_tasks(file: &[u8], placement: &[u8], out: &mut [i32]) -> u64 {
    write(&judge(file, placement), placement.len(), out)
}

/// Writes what was judged of a placement of so many tasks.
pub fn write(judged: &Judged, tasks: usize, out: &mut [i32]) -> u64 {
    let judgement = match judged {
        Ok(judgement) => judgement,
        Err(refusal) => return refusal.code(),
    };
    let Some(places) = out.get_mut(..2 * tasks + 2) else {
        return Refusal { cause: Cause::BufferTooShort, place: 0 }.code();
    };
    let (number, concerned) = judgement.broken.map_or((0, 0), |(rule, concerned)| (rule as usize, concerned));
    let responses = judgement.responses[..tasks].iter().map(|&response| response as i32);
    let margins = judgement.margins[..tasks].iter().map(|margin| margin.number());
    let numbers = [number as i32, concerned as i32].into_iter().chain(responses).chain(margins);
    places.iter_mut().zip(numbers).for_each(|(place, number)| *place = number);
    places.len() as u64
}

/// A placement of every task on a processor of the table.
pub struct Placed<'a> {
    pub table: &'a Table,
    pub placement: &'a [u8],
}

impl<'a> Placed<'a> {
    fn of(table: &'a Table, placement: &'a [u8]) -> Result<Placed<'a>, Refusal> {
        if placement.len() != table.tasks.len() {
            return Err(Refusal { cause: Cause::PlacementLength, place: 0 });
        }
        let unknown = |&processor: &u8| usize::from(processor) >= table.processors.len();
        match placement.iter().position(unknown) {
            Some(place) => Err(Refusal { cause: Cause::UnknownProcessor, place }),
            None => Ok(Placed { table, placement }),
        }
    }
}

impl Placed<'_> {
    /// The tasks that stand on a processor.
    pub fn on(&self, processor: usize) -> u32 {
        let stands = |&task: &usize| usize::from(self.placement[task]) == processor;
        (0..self.placement.len()).filter(stands).fold(0, |set, task| set | 1 << task)
    }

    fn first_broken(&self) -> Option<(Rule, usize)> {
        RULES.into_iter().find_map(|rule| Some((rule, self.lowest_breaking(rule)?)))
    }

    /// Whether it keeps the placement rules, which are all but the deadlines.
    pub fn keeps_rules(&self) -> bool {
        RULES.into_iter().filter(|&rule| rule != Rule::Deadline).all(|rule| self.keeps(rule))
    }

    pub fn keeps(&self, rule: Rule) -> bool {
        self.lowest_breaking(rule).is_none()
    }

    /// The lowest number with which this rule is broken.
    pub fn lowest_breaking(&self, rule: Rule) -> Option<usize> {
        let table = self.table;
        match rule {
            Rule::Residence => (0..table.tasks.len()).find(|&task| !self.resides(task)),
            Rule::CoResidence => table.co_resident.iter().position(|&group| !self.together(group)),
            Rule::Exclusion => table.exclusive.iter().position(|&group| !self.apart(group)),
            Rule::Memory => (0..table.processors.len()).find(|&processor| !self.memory_suffices(processor)),
            Rule::Utilisation => (0..table.processors.len()).find(|&processor| !self.within_limit(processor)),
            Rule::Network => (!self.network_suffices()).then_some(0),
            Rule::Deadline => (0..table.tasks.len()).find(|&task| self.response(task) == 0),
        }
    }

    fn resides(&self, task: usize) -> bool {
        self.table.tasks[task].residence >> self.placement[task] & 1 == 1
    }

    fn together(&self, group: u32) -> bool {
        (0..self.table.processors.len()).any(|processor| group & !self.on(processor) == 0)
    }

    fn apart(&self, group: u32) -> bool {
        (0..self.table.processors.len()).all(|processor| (group & self.on(processor)).count_ones() <= 1)
    }

    fn memory_suffices(&self, processor: usize) -> bool {
        let taken: u64 =
            members(self.on(processor)).map(|task| u64::from(self.table.tasks[task].memory)).sum();
        taken <= u64::from(self.table.processors[processor].memory)
    }

    fn within_limit(&self, processor: usize) -> bool {
        let limit = u64::from(self.table.processors[processor].limit);
        1000 * self.load(processor) <= limit * u64::from(self.table.hyperperiod)
    }

    /// The work of a processor in one hyperperiod.
    pub fn load(&self, processor: usize) -> u64 {
        let hyperperiod = u64::from(self.table.hyperperiod);
        let tasks = members(self.on(processor)).map(|task| &self.table.tasks[task]);
        tasks.map(|task| u64::from(task.execution) * hyperperiod / u64::from(task.period)).sum()
    }

    fn network_suffices(&self) -> bool {
        let hyperperiod = u64::from(self.table.hyperperiod);
        let mut carried = 0;
        for message in &self.table.messages {
            let (sender, receiver) = (usize::from(message.sender), usize::from(message.receiver));
            if self.placement[sender] != self.placement[receiver] {
                let period = u64::from(self.table.tasks[sender].period);
                carried += u64::from(message.amount) * hyperperiod / period;
            }
        }
        carried <= u64::from(self.table.capacity) * hyperperiod
    }

    pub fn response(&self, task: usize) -> u32 {
        response(&self.table.tasks, self.on(usize::from(self.placement[task])), task)
    }

    /// The margin of each task, by one run of each processor.
    pub fn margins(&self) -> [Margin; MOST_TASKS] {
        let mut all = [Margin::Known(0); MOST_TASKS];
        for processor in 0..self.table.processors.len() {
            margins(&self.table.tasks, self.on(processor)).for_each(|(task, margin)| all[task] = margin);
        }
        all
    }
}
