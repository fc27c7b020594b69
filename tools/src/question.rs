//! The question of a table for solvers of other makers: does a placement keep rules 101 to 106 with no late set?
//! A solver knows no response equation. So it is given all minimal late sets, and has only to keep them apart.

use crate::model::{Message, Processor, Table, Task};
use crate::schedule::{late, members};

/// What a solver's whole numbers hold.
const LARGEST: u64 = i32::MAX as u64;

/// A table in exact whole numbers, as small as can be: the solvers count in 32 bits.
pub struct Question<'a> {
    table: &'a Table,
    loads: Vec<u64>,
    limits: Vec<u64>,
    traffic: Vec<u64>,
    capacity: u64,
    late_sets: Vec<u32>,
}

impl Question<'_> {
    /// None if a sum could exceed the solvers' numbers.
    pub fn of(table: &Table) -> Option<Question<'_>> {
        let hyperperiod = u64::from(table.hyperperiod);
        let per_run = |task: &Task| hyperperiod / u64::from(task.period);
        let loads = table.tasks.iter().map(|task| 1000 * u64::from(task.execution) * per_run(task)).collect();
        let limits = table.processors.iter().map(|one| u64::from(one.limit) * hyperperiod).collect();
        let amount = |sender: u8, amount: u32| u64::from(amount) * per_run(&table.tasks[usize::from(sender)]);
        let traffic = table.messages.iter().map(|one| amount(one.sender, one.amount)).collect();
        let (loads, limits) = reduced(loads, limits);
        let (traffic, capacity) = reduced(traffic, vec![u64::from(table.capacity) * hyperperiod]);
        let memory: u64 = table.tasks.iter().map(|task| u64::from(task.memory)).sum();
        let sums = [memory, loads.iter().sum(), traffic.iter().sum()];
        let question =
            Question { table, loads, limits, traffic, capacity: capacity[0], late_sets: Vec::new() };
        sums.into_iter().all(|sum| sum <= LARGEST).then(|| question.with_late_sets())
    }

    fn with_late_sets(mut self) -> Self {
        let mut found = Vec::new();
        self.extend(0, 0, &mut found);
        self.late_sets = found;
        self
    }

    /// Sets grow by rising task, so that each is reached once. A minimal late set is not late without its last
    /// task, and a set that no processor can hold need not be kept apart.
    fn extend(&self, set: u32, next: usize, found: &mut Vec<u32>) {
        for task in next..self.table.tasks.len() {
            let larger = set | 1 << task;
            if !self.fits(larger) {
                continue;
            }
            if !late(&self.table.tasks, larger) {
                self.extend(larger, task + 1, found);
            } else if members(larger).all(|one| !late(&self.table.tasks, larger & !(1 << one))) {
                found.push(larger);
            }
        }
    }

    fn fits(&self, set: u32) -> bool {
        let sum = |weight: &dyn Fn(usize) -> u64| members(set).map(weight).sum::<u64>();
        let memory = sum(&|task| u64::from(self.table.tasks[task].memory));
        let load = sum(&|task| self.loads[task]);
        let holds = |number: usize| {
            memory <= u64::from(self.table.processors[number].memory) && load <= self.limits[number]
        };
        let resident =
            |number: usize| members(set).all(|task| self.table.tasks[task].residence >> number & 1 == 1);
        let apart = self.table.exclusive.iter().all(|group| (group & set).count_ones() < 2);
        apart && (0..self.table.processors.len()).any(|number| holds(number) && resident(number))
    }

    /// Facts for clingo.
    pub fn facts(&self) -> String {
        [
            format!("capacity({}).\n", self.capacity.min(LARGEST)),
            self.processor_facts(),
            self.task_facts(),
            self.message_facts(),
            group_facts("together", &self.table.co_resident),
            group_facts("apart", &self.table.exclusive),
            self.late_sets.iter().map(|&set| kept_apart(set)).collect(),
        ]
        .concat()
    }

    fn processor_facts(&self) -> String {
        let fact = |(number, (processor, limit)): (usize, (&Processor, &u64))| {
            let memory = u64::from(processor.memory).min(LARGEST);
            format!("processor({number},{memory},{}).\n", limit.min(&LARGEST))
        };
        self.table.processors.iter().zip(&self.limits).enumerate().map(fact).collect()
    }

    fn task_facts(&self) -> String {
        let fact = |(number, (task, load)): (usize, (&Task, &u64))| {
            let may =
                members(u32::from(task.residence)).map(|processor| format!(" may({number},{processor})."));
            format!("task({number},{},{load}).{}\n", task.memory, may.collect::<String>())
        };
        self.table.tasks.iter().zip(&self.loads).enumerate().map(fact).collect()
    }

    fn message_facts(&self) -> String {
        let fact = |(number, (message, amount)): (usize, (&Message, &u64))| {
            format!("message({number},{},{},{amount}).\n", message.sender, message.receiver)
        };
        self.table.messages.iter().zip(&self.traffic).enumerate().map(fact).collect()
    }

    /// Data for MiniZinc, in which everything is numbered from 1.
    pub fn data(&self) -> String {
        let Table { tasks, processors, messages, .. } = self.table;
        let sets = |masks: &[u32]| list(masks.iter().map(|&mask| set_text(mask)));
        let rows = [
            ("room", list(processors.iter().map(|processor| u64::from(processor.memory).min(LARGEST)))),
            ("limit", list(self.limits.iter().map(|&limit| limit.min(LARGEST)))),
            ("memory", list(tasks.iter().map(|task| task.memory))),
            ("load", list(self.loads.iter())),
            ("residence", list(tasks.iter().map(|task| set_text(u32::from(task.residence))))),
            ("capacity", self.capacity.min(LARGEST).to_string()),
            ("sender", list(messages.iter().map(|message| message.sender + 1))),
            ("receiver", list(messages.iter().map(|message| message.receiver + 1))),
            ("traffic", list(self.traffic.iter())),
            ("together", sets(&self.table.co_resident)),
            ("apart", sets(&self.table.exclusive)),
            ("late", sets(&self.late_sets)),
        ];
        rows.map(|(name, value)| format!("{name} = {value};\n")).concat()
    }
}

/// The weights by their greatest common divisor, and the bounds by it, rounded down: the same sums keep them.
fn reduced(weights: Vec<u64>, bounds: Vec<u64>) -> (Vec<u64>, Vec<u64>) {
    let divisor = weights.iter().fold(0, |divisor, &weight| common_divisor(divisor, weight)).max(1);
    let by = |numbers: Vec<u64>| numbers.into_iter().map(|number| number / divisor).collect();
    (by(weights), by(bounds))
}

fn common_divisor(mut divisor: u64, mut rest: u64) -> u64 {
    while rest != 0 {
        (divisor, rest) = (rest, divisor % rest);
    }
    divisor
}

fn group_facts(name: &str, groups: &[u32]) -> String {
    let fact = |(number, &group): (usize, &u32)| {
        let facts: Vec<String> = members(group).map(|task| format!("{name}({number},{task}).")).collect();
        format!("{}\n", facts.join(" "))
    };
    groups.iter().enumerate().map(fact).collect()
}

/// The tasks of a late set stand on no processor together.
fn kept_apart(late_set: u32) -> String {
    let on: String = members(late_set).map(|task| format!(", on({task},P)")).collect();
    format!(":- processor(P,_,_){on}.\n")
}

fn list<T: ToString>(items: impl Iterator<Item = T>) -> String {
    format!("[{}]", items.map(|item| item.to_string()).collect::<Vec<_>>().join(","))
}

fn set_text(mask: u32) -> String {
    format!("{{{}}}", members(mask).map(|number| (number + 1).to_string()).collect::<Vec<_>>().join(","))
}

#[cfg(test)]
mod tests {
    use super::*;
    use crate::examples::task;
    use crate::generate::loads::loads;
    use crate::generate::sets::free_table;

    /// 01's example: all three together are late, any two are not. H is 12: the loads are 3000, 4000, 3000 by
    /// a limit of 12000, and by 1000 of that.
    #[test]
    fn the_question_of_the_example() {
        let tasks = vec![task(1, 4, 4, 30), task(2, 6, 6, 20), task(3, 12, 9, 10)];
        let table = free_table(tasks, 2);
        let question = Question::of(&table).expect("small numbers");
        assert_eq!((question.loads, question.late_sets), (vec![3, 4, 3], vec![0b111]));
        assert_eq!(question.limits, [12, 12]);
    }

    #[test]
    fn every_late_set_that_fits_holds_a_listed_one() {
        let table = loads(3, 10, 2);
        let question = Question::of(&table).expect("small numbers");
        let listed = |set: u32| question.late_sets.iter().any(|&conflict| conflict & !set == 0);
        for set in 1..1 << 10 {
            assert!(!question.fits(set) || listed(set) == late(&table.tasks, set), "{set:#b}");
        }
    }
}
