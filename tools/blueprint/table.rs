//! The table of a file, with loads and traffic in whole numbers for one hyperperiod.

pub const TASKS: usize = 24;
pub const PROCESSORS: usize = 8;

pub struct Message {
    pub sender: usize,
    pub receiver: usize,
    /// What it sends in a hyperperiod.
    pub amount: u64,
}

/// A set of tasks is a number whose bit k stands for task k; a set of processors likewise.
#[derive(Default)]
pub struct Table {
    pub tasks: usize,
    pub processors: usize,
    /// What the network carries in a hyperperiod.
    pub capacity: u64,
    pub memory_room: [u64; PROCESSORS],
    pub load_room: [u64; PROCESSORS],
    pub execution: [u32; TASKS],
    pub period: [u32; TASKS],
    pub deadline: [u32; TASKS],
    pub memory: [u64; TASKS],
    /// Thousandths of the ticks that a task takes in a hyperperiod.
    pub load: [u64; TASKS],
    pub priority: [u16; TASKS],
    pub residence: [u32; TASKS],
    /// The tasks of higher priority.
    pub higher: [u32; TASKS],
    /// The tasks that must stand on the same processor.
    pub partners: [u32; TASKS],
    /// The tasks that may not stand on the same processor.
    pub excluded: [u32; TASKS],
    pub messages: Vec<Message>,
}

/// The tasks of a set, rising.
pub fn members(mut set: u32) -> impl Iterator<Item = usize> {
    std::iter::from_fn(move || {
        let lowest = (set != 0).then_some(set.trailing_zeros() as usize);
        set &= set.wrapping_sub(1);
        lowest
    })
}

pub fn greatest_common_divisor(mut one: u64, mut other: u64) -> u64 {
    while other > 0 {
        (one, other) = (other, one % other);
    }
    one
}

impl Table {
    /// Of a file that the tool reads: nothing is refused here.
    pub fn of_file(file: &[u8]) -> Table {
        let mut table = Table::default();
        let mut rest = file;
        while !rest.is_empty() {
            let (record, behind) = rest.split_at(length(rest));
            table.add(record);
            rest = behind;
        }
        table.scale_to_hyperperiod();
        for task in 0..table.tasks {
            table.higher[task] = table.where_all(|other| table.priority[other] > table.priority[task]);
        }
        table
    }

    fn add(&mut self, record: &[u8]) {
        match &record[..2] {
            b"NT" => self.capacity = u64::from(long(record, 2)),
            b"PR" => {
                self.memory_room[self.processors] = u64::from(long(record, 2));
                self.load_room[self.processors] = u64::from(short(record, 6));
                self.processors += 1;
            }
            b"TK" => self.add_task(record),
            b"CO" => add_group(&mut self.partners, long(record, 2)),
            b"EX" => add_group(&mut self.excluded, long(record, 2)),
            _ => {
                let (sender, receiver) = (usize::from(record[2]), usize::from(record[3]));
                self.messages.push(Message { sender, receiver, amount: u64::from(long(record, 4)) });
            }
        }
    }

    fn add_task(&mut self, record: &[u8]) {
        let task = self.tasks;
        self.execution[task] = long(record, 2);
        self.period[task] = long(record, 6);
        self.deadline[task] = long(record, 10);
        self.memory[task] = u64::from(long(record, 14));
        self.priority[task] = short(record, 18);
        self.residence[task] = u32::from(short(record, 20));
        self.tasks += 1;
    }

    fn scale_to_hyperperiod(&mut self) {
        let periods = &self.period[..self.tasks];
        let multiple = |all: u64, &period: &u32| {
            all / greatest_common_divisor(all, u64::from(period)) * u64::from(period)
        };
        let hyperperiod = periods.iter().fold(1, multiple);
        let jobs = self.period.map(|period| hyperperiod / u64::from(period.max(1)));
        self.load_room = self.load_room.map(|limit| limit * hyperperiod);
        self.capacity *= hyperperiod;
        self.load = std::array::from_fn(|task| 1000 * u64::from(self.execution[task]) * jobs[task]);
        self.messages.iter_mut().for_each(|message| message.amount *= jobs[message.sender]);
    }

    /// The tasks for which the test holds.
    pub fn where_all(&self, test: impl Fn(usize) -> bool) -> u32 {
        (0..self.tasks).filter(|&task| test(task)).fold(0, |set, task| set | 1 << task)
    }

    pub fn all_tasks(&self) -> u32 {
        (1 << self.tasks) - 1
    }

    pub fn all_processors(&self) -> u32 {
        (1 << self.processors) - 1
    }
}

/// How many bytes the first record has, by its mark.
fn length(records: &[u8]) -> usize {
    match &records[..2] {
        b"TK" => 22,
        b"PR" | b"MS" => 8,
        _ => 6,
    }
}

fn long(record: &[u8], at: usize) -> u32 {
    u32::from_le_bytes([record[at], record[at + 1], record[at + 2], record[at + 3]])
}

fn short(record: &[u8], at: usize) -> u16 {
    u16::from_le_bytes([record[at], record[at + 1]])
}

fn add_group(groups: &mut [u32; TASKS], group: u32) {
    for task in members(group) {
        groups[task] |= group & !(1 << task);
    }
}
