//! Files that are refused, and the refusal that must follow: with one record in which a chosen set of causes
//! meets, with what is no record, or without a kind.

use super::tables::{Shape, table};
use crate::file::{File, encode, records};
use crate::model::*;
use crate::random::Random;

/// A kind of record and causes of refusal that can meet in one record of it.
pub struct Meeting {
    pub kind: Kind,
    pub causes: Vec<Cause>,
}

pub fn all_meetings() -> Vec<Meeting> {
    use Cause::*;
    let possible: [(Kind, &[Cause]); 6] = [
        (Kind::Network, &[Cut, OutOfOrder]),
        (Kind::Processor, &[Cut, OutOfOrder, TooMany, OutOfRange]),
        (Kind::Task, &[Cut, OutOfOrder, TooMany, OutOfRange, NotInFile, PriorityUsed, HyperperiodTooLarge]),
        (Kind::CoResident, &[Cut, OutOfOrder, TooMany, NotInFile]),
        (Kind::Exclusive, &[Cut, OutOfOrder, TooMany, NotInFile]),
        (Kind::Message, &[Cut, TooMany, OutOfRange, NotInFile, PeriodsDiffer, PairRepeated]),
    ];
    let mut meetings = Vec::new();
    for (kind, causes) in possible {
        for chosen in 1..1 << causes.len() {
            let numbers = (0..causes.len()).filter(|k| chosen >> k & 1 == 1);
            meetings.push(Meeting { kind, causes: numbers.map(|k| causes[k]).collect() });
        }
    }
    meetings.retain(Meeting::possible);
    meetings
}

/// A file that is refused, for each of the causes equally often, and the refusal.
pub fn refused_file(random: &mut Random) -> (Vec<u8>, Refusal) {
    match random.pick(&CAUSES_OF_A_FILE) {
        Cause::Cut if random.once_in(2) => mark_cut(random),
        Cause::UnknownMark => unknown_mark(random),
        Cause::KindMissing => kind_missing(random),
        cause => {
            let mut meetings = all_meetings();
            meetings.retain(|meeting| meeting.first() == cause);
            meetings[random.below(meetings.len())].file(random)
        }
    }
}

/// One byte behind whole records, whatever it is.
fn mark_cut(random: &mut Random) -> (Vec<u8>, Refusal) {
    let mut file = some_records(random);
    let refusal = Refusal { cause: Cause::Cut, place: file.len() };
    file.push(random.draw() as u8);
    (file, refusal)
}

/// Two bytes behind whole records that are no mark, often with one byte of a mark among them.
fn unknown_mark(random: &mut Random) -> (Vec<u8>, Refusal) {
    let mut file = some_records(random);
    let refusal = Refusal { cause: Cause::UnknownMark, place: file.len() };
    let any = random.draw() as u8;
    let first = random.pick(&[any, b'N', b'P', b'T', b'C', b'E', b'M', 0]);
    let second = random.pick(&[any, b'T', b'R', b'K', b'O', b'X', b'S', 0]);
    let is_known = Kind::of_mark(&[first, second]).is_some();
    file.extend([first, if is_known { 0 } else { second }]);
    append_tail(random, &mut file);
    (file, refusal)
}

/// Whole records in their order, but none of some kind that must be there. Tasks need processors before them.
fn kind_missing(random: &mut Random) -> (Vec<u8>, Refusal) {
    let shape = Shape::random(random);
    let records = records(&table(random, shape));
    let (all, first_task) = (records.len(), 1 + shape.processors);
    let (from, to) = random.pick(&[(0, 0), (0, 1), (0, first_task), (1, first_task), (1, all)]);
    let file = records[from..to].concat();
    let refusal = Refusal { cause: Cause::KindMissing, place: file.len() };
    (file, refusal)
}

/// The first records of a table, from none to all.
fn some_records(random: &mut Random) -> Vec<u8> {
    let shape = Shape::random(random);
    let records = records(&table(random, shape));
    records[..random.below(records.len() + 1)].concat()
}

impl Meeting {
    /// The numbers of the causes rise in the order in which a record is examined.
    fn first(&self) -> Cause {
        self.causes.iter().copied().min().expect("a meeting has a cause")
    }

    fn has(&self, cause: Cause) -> bool {
        self.causes.contains(&cause)
    }

    /// An unknown task has no period, a task has its own, and an earlier message had equal periods:
    /// of the three causes at most one can hold.
    fn possible(&self) -> bool {
        CAUSES_OF_A_PAIR.iter().filter(|&&cause| self.has(cause)).count() <= 1
    }

    /// A file in which the first faulty record has these causes, and the refusal.
    pub fn file(&self, random: &mut Random) -> (Vec<u8>, Refusal) {
        let table = self.table_before(random);
        let mut bytes = match self.kind {
            Kind::Network if !self.has(Cause::OutOfOrder) => Vec::new(),
            _ => encode(&table),
        };
        let place = bytes.len();
        bytes.extend(self.record(random, &table));
        if self.has(Cause::Cut) {
            let mark_and_more = 2 + random.below(self.kind.length() - 2);
            bytes.truncate(place + mark_and_more);
        } else {
            append_tail(random, &mut bytes);
        }
        (bytes, Refusal { cause: self.first(), place })
    }

    /// What stands before the faulty record.
    fn table_before(&self, random: &mut Random) -> Table {
        loop {
            let shape = self.shape(random);
            let mut table = table(random, shape);
            if !self.has(Cause::OutOfOrder) {
                self.drop_later(&mut table);
            }
            if self.suits(&table) {
                return table;
            }
        }
    }

    fn shape(&self, random: &mut Random) -> Shape {
        let mut shape = Shape { tasks: 2 + random.below(MOST_TASKS - 2), ..Shape::random(random) };
        let too_many = self.has(Cause::TooMany);
        let mut count = |most: usize| if too_many { most } else { 1 + random.below(most - 1) };
        match self.kind {
            Kind::Network => {}
            Kind::Processor => shape.processors = count(MOST_PROCESSORS),
            Kind::Task => shape.tasks = count(MOST_TASKS),
            Kind::CoResident => shape.co_resident = count(MOST_GROUPS),
            Kind::Exclusive => shape.exclusive = count(MOST_GROUPS),
            Kind::Message => {
                shape.messages = count(MOST_MESSAGES);
                shape.periods = 2;
            }
        }
        shape
    }

    fn drop_later(&self, table: &mut Table) {
        if self.kind < Kind::Task {
            table.tasks.clear();
        }
        if self.kind < Kind::CoResident {
            table.co_resident.clear();
        }
        if self.kind < Kind::Exclusive {
            table.exclusive.clear();
        }
        if self.kind < Kind::Message {
            table.messages.clear();
        }
    }

    /// Whether the causes can be had after this table.
    fn suits(&self, table: &Table) -> bool {
        let messages = table.messages.len();
        let after_groups = table.exclusive.len() + messages;
        let ordered = !self.has(Cause::OutOfOrder);
        match self.kind {
            Kind::Network | Kind::Processor => true,
            Kind::Task => {
                let later = after_groups + table.co_resident.len();
                (ordered || later > 0)
                    && (!self.has(Cause::HyperperiodTooLarge) || table.hyperperiod > 100_000)
            }
            Kind::CoResident => ordered || after_groups > 0,
            Kind::Exclusive => ordered || messages > 0,
            Kind::Message => {
                let full = messages == MOST_MESSAGES;
                full == self.has(Cause::TooMany) && messages > 0 && !self.pairs(table).is_empty()
            }
        }
    }

    fn record(&self, random: &mut Random, table: &Table) -> Vec<u8> {
        let file = match self.kind {
            Kind::Network => File::new().network(random.draw() as u32),
            Kind::Processor => File::new().processor(self.processor(random)),
            Kind::Task => File::new().task(self.task(random, table)),
            Kind::CoResident => File::new().co_resident(self.group(random, table.tasks.len())),
            Kind::Exclusive => File::new().exclusive(self.group(random, table.tasks.len())),
            Kind::Message => File::new().message(self.message(random, table)),
        };
        file.bytes
    }

    fn processor(&self, random: &mut Random) -> Processor {
        let limit = match self.has(Cause::OutOfRange) {
            true => random.pick(&[0, LARGEST_LIMIT + 1, u16::MAX]),
            false => random.pick(&[1, LARGEST_LIMIT]),
        };
        Processor { memory: random.draw() as u32, limit }
    }

    fn task(&self, random: &mut Random, table: &Table) -> Task {
        let mut task = table.tasks[random.below(table.tasks.len())];
        if !self.has(Cause::PriorityUsed) {
            while table.tasks.iter().any(|earlier| earlier.priority == task.priority) {
                task.priority = random.draw() as u16;
            }
        }
        if self.has(Cause::HyperperiodTooLarge) {
            task.period = period_too_far(random, table.hyperperiod);
            task.deadline = task.period;
            task.execution = random.within(1, task.period);
        }
        if self.has(Cause::OutOfRange) {
            spoil_times(random, &mut task);
        }
        if self.has(Cause::NotInFile) {
            let unknown = 1 << random.within(table.processors.len() as u32, 15);
            task.residence = random.pick(&[0, unknown, task.residence | unknown]);
        }
        task
    }

    fn group(&self, random: &mut Random, tasks: usize) -> u32 {
        let known = random.below(tasks);
        let unknown = 1 << random.within(tasks as u32, 31);
        let pair = 1 << known | 1 << ((known + 1) % tasks);
        match self.has(Cause::NotInFile) {
            true => random.pick(&[0, 1 << known, 1 << known | unknown, pair | unknown]),
            false => pair,
        }
    }

    fn message(&self, random: &mut Random, table: &Table) -> Message {
        let (sender, receiver) = random.pick(&self.pairs(table));
        let amount = match self.has(Cause::OutOfRange) {
            true => random.pick(&[0, LARGEST_AMOUNT + 1, u32::MAX]),
            false => random.pick(&[1, LARGEST_AMOUNT]),
        };
        Message { sender, receiver, amount }
    }

    /// Senders and receivers that have the causes of this meeting and no others.
    fn pairs(&self, table: &Table) -> Vec<(u8, u8)> {
        let wanted = self.causes.iter().copied().find(|cause| CAUSES_OF_A_PAIR.contains(cause));
        let known = table.tasks.len() as u8;
        let numbers: Vec<u8> = (0..=known).chain([254, 255]).collect();
        let all = numbers.iter().flat_map(|&sender| numbers.iter().map(move |&receiver| (sender, receiver)));
        all.filter(|&pair| cause_of_pair(table, pair) == wanted).collect()
    }
}

const CAUSES_OF_A_PAIR: [Cause; 3] = [Cause::NotInFile, Cause::PeriodsDiffer, Cause::PairRepeated];

fn cause_of_pair(table: &Table, (sender, receiver): (u8, u8)) -> Option<Cause> {
    let period = |number: u8| table.tasks.get(usize::from(number)).map(|task| task.period);
    let earlier = |message: &Message| (message.sender, message.receiver) == (sender, receiver);
    if sender == receiver || period(sender).is_none() || period(receiver).is_none() {
        Some(Cause::NotInFile)
    } else if period(sender) != period(receiver) {
        Some(Cause::PeriodsDiffer)
    } else if table.messages.iter().any(earlier) {
        Some(Cause::PairRepeated)
    } else {
        None
    }
}

/// A period in its range with which the hyperperiod passes its limit.
fn period_too_far(random: &mut Random, hyperperiod: u32) -> u32 {
    loop {
        let period = random.within(1, LONGEST_PERIOD);
        if least_common_multiple(hyperperiod, period) > LARGEST_HYPERPERIOD {
            return period;
        }
    }
}

/// Breaks 1 ≤ C ≤ D ≤ T ≤ 1,000,000 in one place or in all.
fn spoil_times(random: &mut Random, task: &mut Task) {
    match random.below(5) {
        0 => task.execution = 0,
        1 => task.execution = task.deadline + 1 + random.within(0, 9),
        2 => task.deadline = task.period + 1 + random.within(0, 9),
        3 => task.period = LONGEST_PERIOD + 1 + random.within(0, 9),
        _ => (task.execution, task.deadline, task.period) = (0, 0, 0),
    }
}

/// What stands after the first faulty record has no influence.
fn append_tail(random: &mut Random, bytes: &mut Vec<u8>) {
    let length = random.pick(&[0, 0, 1, 2, 40]);
    bytes.extend((0..length).map(|_| random.draw() as u8));
}

#[cfg(test)]
mod tests {
    use super::*;
    use crate::reader::read;

    #[test]
    fn the_reader_finds_the_first_of_causes_that_meet() {
        let mut random = Random::new(4);
        for meeting in all_meetings() {
            for _ in 0..20 {
                let (bytes, refusal) = meeting.file(&mut random);
                assert_eq!(read(&bytes), Err(refusal), "{:?} {:?}", meeting.kind, meeting.causes);
            }
        }
    }

    #[test]
    fn every_cause_of_a_file_occurs() {
        let mut random = Random::new(12);
        let mut refused = [0; 12];
        for _ in 0..5_000 {
            let (bytes, refusal) = refused_file(&mut random);
            assert_eq!(read(&bytes), Err(refusal), "{bytes:?}");
            refused[refusal.cause as usize] += 1;
        }
        assert!(refused[1..].iter().all(|&count| count >= 300), "{refused:?}");
    }

    /// NT 3 sets, PR 15, TK 127, CO and EX 15 each; MS 2 × 2 × 2 × 4 − 1.
    #[test]
    fn every_meeting_is_there() {
        assert_eq!(all_meetings().len(), 3 + 15 + 127 + 15 + 15 + 31);
    }
}
