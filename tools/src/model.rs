//! The table as 01 "The table file" describes it, and the refusals of 01 "Refused input".

pub const MOST_PROCESSORS: usize = 8;
pub const MOST_TASKS: usize = 24;
pub const MOST_GROUPS: usize = 16;
pub const MOST_MESSAGES: usize = 64;
pub const LARGEST_LIMIT: u16 = 1000;
pub const LONGEST_PERIOD: u32 = 1_000_000;
pub const LARGEST_AMOUNT: u32 = 1_000_000;
pub const LARGEST_HYPERPERIOD: u64 = 1_000_000_000;

/// The kinds of record in the order in which they must stand.
#[derive(Clone, Copy, Debug, PartialEq, Eq, PartialOrd, Ord)]
pub enum Kind {
    Network,
    Processor,
    Task,
    CoResident,
    Exclusive,
    Message,
}

impl Kind {
    pub fn of_mark(mark: &[u8; 2]) -> Option<Kind> {
        match mark {
            b"NT" => Some(Kind::Network),
            b"PR" => Some(Kind::Processor),
            b"TK" => Some(Kind::Task),
            b"CO" => Some(Kind::CoResident),
            b"EX" => Some(Kind::Exclusive),
            b"MS" => Some(Kind::Message),
            _ => None,
        }
    }

    /// Bytes of a record, the mark among them.
    pub fn length(self) -> usize {
        match self {
            Kind::Network | Kind::CoResident | Kind::Exclusive => 6,
            Kind::Processor | Kind::Message => 8,
            Kind::Task => 22,
        }
    }
}

#[derive(Clone, Copy, Debug, PartialEq, Eq)]
pub struct Processor {
    pub memory: u32,
    /// Utilisation limit in thousandths.
    pub limit: u16,
}

#[derive(Clone, Copy, Debug, PartialEq, Eq)]
pub struct Task {
    /// C, the worst execution time.
    pub execution: u32,
    /// T.
    pub period: u32,
    /// D.
    pub deadline: u32,
    pub memory: u32,
    /// The larger number goes first.
    pub priority: u16,
    /// Bit p: the task may stand on processor p.
    pub residence: u16,
}

#[derive(Clone, Copy, Debug, PartialEq, Eq)]
pub struct Message {
    pub sender: u8,
    pub receiver: u8,
    pub amount: u32,
}

#[derive(Clone, Debug, PartialEq, Eq)]
pub struct Table {
    /// Network capacity, an amount per tick.
    pub capacity: u32,
    pub processors: Vec<Processor>,
    pub tasks: Vec<Task>,
    pub co_resident: Vec<u32>,
    pub exclusive: Vec<u32>,
    pub messages: Vec<Message>,
    /// H, the least common multiple of all periods.
    pub hyperperiod: u32,
}

/// The causes of 01's refusal table, each with its number.
#[derive(Clone, Copy, Debug, PartialEq, Eq, PartialOrd, Ord)]
pub enum Cause {
    Cut = 1,
    UnknownMark = 2,
    OutOfOrder = 3,
    TooMany = 4,
    OutOfRange = 5,
    NotInFile = 6,
    PriorityUsed = 7,
    PeriodsDiffer = 8,
    PairRepeated = 9,
    HyperperiodTooLarge = 10,
    KindMissing = 11,
    BufferTooShort = 12,
    PlacementLength = 13,
    UnknownProcessor = 14,
    BadConflictMask = 15,
}

pub const CAUSES: [Cause; 15] = [
    Cause::Cut,
    Cause::UnknownMark,
    Cause::OutOfOrder,
    Cause::TooMany,
    Cause::OutOfRange,
    Cause::NotInFile,
    Cause::PriorityUsed,
    Cause::PeriodsDiffer,
    Cause::PairRepeated,
    Cause::HyperperiodTooLarge,
    Cause::KindMissing,
    Cause::BufferTooShort,
    Cause::PlacementLength,
    Cause::UnknownProcessor,
    Cause::BadConflictMask,
];

/// The first eleven: what a file can be refused for.
pub const CAUSES_OF_A_FILE: [Cause; 11] = *CAUSES.first_chunk().unwrap();

impl Cause {
    pub fn words(self) -> &'static str {
        match self {
            Cause::Cut => "the bytes run out within a record",
            Cause::UnknownMark => "an unknown mark",
            Cause::OutOfOrder => "a record earlier in the order than the one before it, or a second network",
            Cause::TooMany => "one more of this kind than allowed",
            Cause::OutOfRange => "a number outside its range",
            Cause::NotInFile => {
                "a task or processor that the file does not have, an empty residence, a group below two, \
                 or a message from a task to itself"
            }
            Cause::PriorityUsed => "the priority of an earlier task",
            Cause::PeriodsDiffer => "a sender and a receiver of different periods",
            Cause::PairRepeated => "the sender and receiver of an earlier message",
            Cause::HyperperiodTooLarge => "a period with which the hyperperiod passes 1,000,000,000",
            Cause::KindMissing => "no network, no processor or no task",
            Cause::BufferTooShort => "an answer buffer that is too short",
            Cause::PlacementLength => "a placement of another length than the number of tasks",
            Cause::UnknownProcessor => "a placement on a processor that the file does not have",
            Cause::BadConflictMask => "a set with an unknown task, or with fewer than two",
        }
    }
}

#[derive(Clone, Copy, Debug, PartialEq, Eq)]
pub struct Refusal {
    pub cause: Cause,
    pub place: usize,
}

impl Refusal {
    /// The refusal as the C functions return it: the number in the high 32 bits, the place in the low.
    pub fn code(self) -> u64 {
        ((self.cause as u64) << 32) + self.place as u64
    }

    /// The refusal that has this code, if the number is one of 01's.
    pub fn of_code(code: u64) -> Option<Refusal> {
        let cause = CAUSES.into_iter().find(|&cause| cause as u64 == code >> 32)?;
        Some(Refusal { cause, place: code as u32 as usize })
    }
}

/// The least common multiple of two periods or of a hyperperiod and a period.
pub fn least_common_multiple(a: u32, b: u32) -> u64 {
    let (mut divisor, mut rest) = (a, b);
    while rest != 0 {
        (divisor, rest) = (rest, divisor % rest);
    }
    u64::from(a / divisor) * u64::from(b)
}

/// H of tasks whose periods keep its limit together.
pub fn hyperperiod(tasks: &[Task]) -> u32 {
    tasks.iter().fold(1, |multiple, task| least_common_multiple(multiple, task.period) as u32)
}
