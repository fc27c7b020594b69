//! The truth by a search over parts of placements. A part that breaks a rule, or in which tasks stand
//! together that must not, is left: no placement of the other tasks mends that.

use super::Truth;
use crate::model::Table;
use crate::schedule::{is_late, late, members};

pub struct Pruned<'a> {
    table: &'a Table,
    first: Option<Vec<u8>>,
}

impl Pruned<'_> {
    pub fn of(table: &Table) -> Pruned<'_> {
        let unwanted = |set: u32| late(&table.tasks, set);
        let first = Part::empty(table, &unwanted).first_placement();
        Pruned { table, first: first.map(|part| part.placement()) }
    }

    /// The first placement, in the order of all, that has these tasks on the processor and keeps residence
    /// with the others.
    fn first_with(&self, set: u32, processor: usize) -> Vec<u8> {
        let place = |(number, residence): (usize, u16)| match set >> number & 1 {
            0 => residence.trailing_zeros() as u8,
            _ => processor as u8,
        };
        self.table.tasks.iter().map(|task| task.residence).enumerate().map(place).collect()
    }

    fn is_earlier(&self, placement: &[u8]) -> bool {
        self.first().is_none_or(|first| placement < first)
    }
}

impl Truth for Pruned<'_> {
    fn table(&self) -> &Table {
        self.table
    }

    fn is_late(&self, set: u32) -> bool {
        is_late(&self.table.tasks, set)
    }

    fn first(&self) -> Option<&[u8]> {
        self.first.as_deref()
    }

    fn is_held(&self, conflict: u32) -> bool {
        let resides = |processor: usize| {
            members(conflict).all(|task| self.table.tasks[task].residence >> processor & 1 == 1)
        };
        let held_on =
            |processor| resides(processor) && self.is_earlier(&self.first_with(conflict, processor));
        (0..self.table.processors.len()).any(held_on)
    }

    fn uncovered(&self, conflicts: &[u32]) -> Option<Vec<u32>> {
        let holds_one = |set: u32| conflicts.iter().any(|conflict| conflict & !set == 0);
        // If the first that holds none is not earlier, no other is.
        let first = Part::empty(self.table, &holds_one).first_placement();
        first.filter(|part| self.is_earlier(&part.placement())).map(|part| part.on)
    }
}

/// Tasks that are placed so that no rule is broken and no set is unwanted, and others that are open.
struct Part<'a> {
    table: &'a Table,
    unwanted: &'a dyn Fn(u32) -> bool,
    /// The tasks on each processor.
    on: Vec<u32>,
    open: u32,
}

impl<'a> Part<'a> {
    fn empty(table: &'a Table, unwanted: &'a dyn Fn(u32) -> bool) -> Part<'a> {
        let open = (1 << table.tasks.len()) - 1;
        Part { table, unwanted, on: vec![0; table.processors.len()], open }
    }

    /// The first placement of all tasks, if there is one: task by task the lowest processor with which
    /// the others can be placed too.
    fn first_placement(mut self) -> Option<Part<'a>> {
        let processors = 0..self.on.len();
        let settled = (0..self.table.tasks.len())
            .all(|task| processors.clone().any(|processor| self.settle(task, processor)));
        settled.then_some(self)
    }

    /// Places the task if all others can be placed then.
    fn settle(&mut self, task: usize, processor: usize) -> bool {
        if !self.allows(task, processor) {
            return false;
        }
        self.place(task, processor);
        let (on, open) = (self.on.clone(), self.open);
        let possible = self.complete();
        (self.on, self.open) = (on, open);
        if !possible {
            self.take_back(task, processor);
        }
        possible
    }

    /// Places all open tasks if that is possible.
    fn complete(&mut self) -> bool {
        let Some(task) = self.tightest() else {
            return true;
        };
        for processor in 0..self.on.len() {
            if self.allows(task, processor) {
                self.place(task, processor);
                if self.complete() {
                    return true;
                }
                self.take_back(task, processor);
            }
        }
        false
    }

    /// The open task that can stand on the fewest processors.
    fn tightest(&self) -> Option<usize> {
        let choices = |&task: &usize| (0..self.on.len()).filter(|&on| self.allows(task, on)).count();
        members(self.open).min_by_key(choices)
    }

    /// The processor of each task when none is open.
    fn placement(&self) -> Vec<u8> {
        let stands = |task: usize| self.on.iter().position(|set| set >> task & 1 == 1);
        (0..self.table.tasks.len()).filter_map(stands).map(|processor| processor as u8).collect()
    }

    fn place(&mut self, task: usize, processor: usize) {
        self.on[processor] |= 1 << task;
        self.open &= !(1 << task);
    }

    fn take_back(&mut self, task: usize, processor: usize) {
        self.on[processor] &= !(1 << task);
        self.open |= 1 << task;
    }

    /// Whether an open task can join the others.
    fn allows(&self, task: usize, processor: usize) -> bool {
        let set = self.on[processor] | 1 << task;
        self.table.tasks[task].residence >> processor & 1 == 1
            && !(self.unwanted)(set)
            && self.keeps_groups(task, processor)
            && self.keeps_sums(set, processor)
            && self.keeps_network(task, processor)
    }

    fn keeps_groups(&self, task: usize, processor: usize) -> bool {
        let elsewhere = !self.open & !self.on[processor];
        let own = |group: &&u32| *group >> task & 1 == 1;
        self.table.co_resident.iter().filter(own).all(|group| group & elsewhere == 0)
            && self.table.exclusive.iter().filter(own).all(|group| group & self.on[processor] == 0)
    }

    fn keeps_sums(&self, set: u32, processor: usize) -> bool {
        let (mut memory, mut load) = (0, 0);
        for task in members(set).map(|task| &self.table.tasks[task]) {
            memory += u64::from(task.memory);
            load += u64::from(self.table.hyperperiod / task.period) * u64::from(task.execution);
        }
        let processor = self.table.processors[processor];
        memory <= u64::from(processor.memory)
            && 1000 * load <= u64::from(processor.limit) * u64::from(self.table.hyperperiod)
    }

    /// The network with all messages between tasks that are placed, this one among them.
    fn keeps_network(&self, task: usize, processor: usize) -> bool {
        let place = |number: u8| match usize::from(number) {
            number if number == task => Some(processor),
            number => self.on.iter().position(|set| set >> number & 1 == 1),
        };
        let mut carried = 0;
        for message in &self.table.messages {
            if let (Some(from), Some(to)) = (place(message.sender), place(message.receiver))
                && from != to
            {
                let times = self.table.hyperperiod / self.table.tasks[usize::from(message.sender)].period;
                carried += u64::from(message.amount) * u64::from(times);
            }
        }
        carried <= u64::from(self.table.capacity) * u64::from(self.table.hyperperiod)
    }
}

#[cfg(test)]
mod tests {
    use super::*;
    use crate::generate::crowded::small_table;
    use crate::random::Random;
    use crate::search::enumerated::Enumerated;

    /// Any sets serve as conflicts here, late or not.
    #[test]
    fn it_agrees_with_trying_all_placements() {
        let mut random = Random::new(11);
        let mut uncovered = [0; 2];
        for _ in 0..4_000 {
            let table = small_table(&mut random);
            let (pruned, enumerated) = (Pruned::of(&table), Enumerated::of(&table, late));
            assert_eq!(pruned.first(), enumerated.first(), "{table:?}");
            let all = 1 << table.tasks.len();
            assert!((1..all).all(|set| pruned.is_held(set) == enumerated.is_held(set)), "{table:?}");
            for count in 0..10 {
                let sets: Vec<u32> = (0..count).map(|_| random.within(1, all - 1)).collect();
                let open = pruned.uncovered(&sets);
                assert_eq!(open, enumerated.uncovered(&sets), "{sets:?} in {table:?}");
                uncovered[usize::from(open.is_some())] += 1;
            }
        }
        assert!(uncovered.iter().all(|&count| count > 2_000), "{uncovered:?}");
    }
}
