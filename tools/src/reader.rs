//! An independent reader of table files, written from 01 "The table file" and "Refused input".

use crate::model::*;

/// What has been read so far.
struct Reader {
    table: Table,
    latest: Kind,
    network_read: bool,
    /// For each sender, the receivers of its messages so far as a mask.
    receivers: [u32; MOST_TASKS],
}

/// The table, or the first faulty record with its first cause.
pub fn read(file: &[u8]) -> Result<Table, Refusal> {
    let mut reader = Reader::new();
    let mut place = 0;
    while place < file.len() {
        match reader.record(&file[place..]) {
            Ok(length) => place += length,
            Err(cause) => return Err(Refusal { cause, place }),
        }
    }
    let table = reader.table;
    if !reader.network_read || table.processors.is_empty() || table.tasks.is_empty() {
        return Err(Refusal { cause: Cause::KindMissing, place });
    }
    Ok(table)
}

/// What the tool's C function returns for this file: 0, or the refusal's code.
pub fn read_code(file: &[u8]) -> u64 {
    match read(file) {
        Ok(_) => 0,
        Err(refusal) => refusal.code(),
    }
}

impl Reader {
    fn new() -> Reader {
        Reader {
            table: Table {
                capacity: 0,
                processors: Vec::with_capacity(MOST_PROCESSORS),
                tasks: Vec::with_capacity(MOST_TASKS),
                co_resident: Vec::with_capacity(MOST_GROUPS),
                exclusive: Vec::with_capacity(MOST_GROUPS),
                messages: Vec::with_capacity(MOST_MESSAGES),
                hyperperiod: 1,
            },
            latest: Kind::Network,
            network_read: false,
            receivers: [0; MOST_TASKS],
        }
    }

    /// Takes the record at the start of `rest`; the answer is its length.
    fn record(&mut self, rest: &[u8]) -> Result<usize, Cause> {
        let mark = rest.first_chunk::<2>().ok_or(Cause::Cut)?;
        let kind = Kind::of_mark(mark).ok_or(Cause::UnknownMark)?;
        let record = rest.get(..kind.length()).ok_or(Cause::Cut)?;
        if kind < self.latest || (kind == Kind::Network && self.network_read) {
            return Err(Cause::OutOfOrder);
        }
        self.latest = kind;
        let fields = &record[2..];
        match kind {
            Kind::Network => self.network(fields),
            Kind::Processor => self.processor(fields)?,
            Kind::Task => self.task(fields)?,
            Kind::CoResident => group(&mut self.table.co_resident, fields, self.table.tasks.len())?,
            Kind::Exclusive => group(&mut self.table.exclusive, fields, self.table.tasks.len())?,
            Kind::Message => self.message(fields)?,
        }
        Ok(record.len())
    }

    fn network(&mut self, fields: &[u8]) {
        self.table.capacity = word(fields, 0);
        self.network_read = true;
    }

    fn processor(&mut self, fields: &[u8]) -> Result<(), Cause> {
        let processor = Processor { memory: word(fields, 0), limit: half(fields, 4) };
        refuse(self.table.processors.len() == MOST_PROCESSORS, Cause::TooMany)?;
        refuse(!(1..=LARGEST_LIMIT).contains(&processor.limit), Cause::OutOfRange)?;
        self.table.processors.push(processor);
        Ok(())
    }

    fn task(&mut self, fields: &[u8]) -> Result<(), Cause> {
        let task = Task {
            execution: word(fields, 0),
            period: word(fields, 4),
            deadline: word(fields, 8),
            memory: word(fields, 12),
            priority: half(fields, 16),
            residence: half(fields, 18),
        };
        let table = &mut self.table;
        refuse(table.tasks.len() == MOST_TASKS, Cause::TooMany)?;
        refuse(!times_in_range(&task), Cause::OutOfRange)?;
        let unknown = u32::from(task.residence) >> table.processors.len();
        refuse(task.residence == 0 || unknown != 0, Cause::NotInFile)?;
        let used = table.tasks.iter().any(|earlier| earlier.priority == task.priority);
        refuse(used, Cause::PriorityUsed)?;
        let multiple = least_common_multiple(table.hyperperiod, task.period);
        refuse(multiple > LARGEST_HYPERPERIOD, Cause::HyperperiodTooLarge)?;
        table.hyperperiod = multiple as u32;
        table.tasks.push(task);
        Ok(())
    }

    fn message(&mut self, fields: &[u8]) -> Result<(), Cause> {
        let message = Message { sender: fields[0], receiver: fields[1], amount: word(fields, 2) };
        let tasks = &self.table.tasks;
        refuse(self.table.messages.len() == MOST_MESSAGES, Cause::TooMany)?;
        refuse(!(1..=LARGEST_AMOUNT).contains(&message.amount), Cause::OutOfRange)?;
        refuse(message.sender == message.receiver, Cause::NotInFile)?;
        let sender = tasks.get(usize::from(message.sender)).ok_or(Cause::NotInFile)?;
        let receiver = tasks.get(usize::from(message.receiver)).ok_or(Cause::NotInFile)?;
        refuse(sender.period != receiver.period, Cause::PeriodsDiffer)?;
        let receivers = &mut self.receivers[usize::from(message.sender)];
        let bit = 1 << message.receiver;
        refuse(*receivers & bit != 0, Cause::PairRepeated)?;
        *receivers |= bit;
        self.table.messages.push(message);
        Ok(())
    }
}

fn times_in_range(task: &Task) -> bool {
    1 <= task.execution
        && task.execution <= task.deadline
        && task.deadline <= task.period
        && task.period <= LONGEST_PERIOD
}

fn group(groups: &mut Vec<u32>, fields: &[u8], tasks: usize) -> Result<(), Cause> {
    let mask = word(fields, 0);
    refuse(groups.len() == MOST_GROUPS, Cause::TooMany)?;
    refuse(mask >> tasks != 0 || mask.count_ones() < 2, Cause::NotInFile)?;
    groups.push(mask);
    Ok(())
}

fn refuse(faulty: bool, cause: Cause) -> Result<(), Cause> {
    if faulty { Err(cause) } else { Ok(()) }
}

fn word(fields: &[u8], at: usize) -> u32 {
    u32::from_le_bytes([fields[at], fields[at + 1], fields[at + 2], fields[at + 3]])
}

fn half(fields: &[u8], at: usize) -> u16 {
    u16::from_le_bytes([fields[at], fields[at + 1]])
}
