//! Tables built around a placement so that it breaks exactly the chosen rules, often by the least
//! amount, and keeps the others, often with nothing to spare.

use super::sets::{crowded_set, free_table};
use super::tables::possible_messages;
use crate::judge::{Placed, Rule};
use crate::model::*;
use crate::random::Random;
use crate::schedule::{late, response};

pub struct Case {
    pub table: Table,
    pub placement: Vec<u8>,
}

/// A case that breaks these rules and no others, with the lowest number for each of them.
pub fn breaking(random: &mut Random, rules: &[Rule]) -> (Case, Vec<(Rule, usize)>) {
    let mut case = Case::in_time(random);
    let numbers = [
        (Rule::Residence, case.set_residence(random, rules.contains(&Rule::Residence))),
        (Rule::CoResidence, case.set_co_resident(random, rules.contains(&Rule::CoResidence))),
        (Rule::Exclusion, case.set_exclusive(random, rules.contains(&Rule::Exclusion))),
        (Rule::Memory, case.set_memory(random, rules.contains(&Rule::Memory))),
        (Rule::Utilisation, case.set_limits(random, rules.contains(&Rule::Utilisation))),
        (Rule::Network, case.set_network(random, rules.contains(&Rule::Network))),
        (Rule::Deadline, case.set_deadlines(random, rules.contains(&Rule::Deadline))),
    ];
    let broken = numbers.into_iter().filter_map(|(rule, number)| Some((rule, number?))).collect();
    (case, broken)
}

impl Case {
    /// A placement on processors that restrict nothing, with deadlines at the periods.
    fn in_time(random: &mut Random) -> Case {
        loop {
            let (count, processors) = (4 + random.below(21), 2 + random.below(7));
            let placement = (0..count).map(|_| random.below(processors) as u8).collect();
            let crowd = (2 * count / processors).max(2) as u32;
            let mut table = free_table(crowded_set(random, count, crowd), processors);
            table.tasks.iter_mut().for_each(|task| task.deadline = task.period);
            let case = Case { table, placement };
            if case.suits() {
                return case;
            }
        }
    }

    /// No job is late, some task waits for another, some two of equal period stand apart.
    fn suits(&self) -> bool {
        let tasks = &self.table.tasks;
        let in_time = (0..self.table.processors.len()).all(|processor| !late(tasks, self.on(processor)));
        in_time
            && !self.waiting().is_empty()
            && possible_messages(tasks).any(|(one, other)| self.apart(one, other))
    }

    fn on(&self, processor: usize) -> u32 {
        Placed { table: &self.table, placement: &self.placement }.on(processor)
    }

    fn response(&self, task: usize) -> u32 {
        response(&self.table.tasks, self.on(usize::from(self.placement[task])), task)
    }

    fn waiting(&self) -> Vec<usize> {
        let waits = |&task: &usize| self.response(task) > self.table.tasks[task].execution;
        (0..self.placement.len()).filter(waits).collect()
    }

    fn apart(&self, one: usize, other: usize) -> bool {
        self.placement[one] != self.placement[other]
    }

    fn set_residence(&mut self, random: &mut Random, broken: bool) -> Option<usize> {
        let all = (1 << self.table.processors.len()) - 1;
        let chosen = choose(random, broken, &(0..self.placement.len()).collect::<Vec<_>>());
        for (number, task) in self.table.tasks.iter_mut().enumerate() {
            let own = 1 << self.placement[number];
            let some = random.draw() as u16 & all;
            task.residence = match chosen.contains(&number) {
                false => some | own,
                true if some & !own == 0 => all & !own,
                true => some & !own,
            };
        }
        chosen.into_iter().min()
    }

    /// Groups of tasks that stand together, and between them one that does not.
    fn set_co_resident(&mut self, random: &mut Random, broken: bool) -> Option<usize> {
        let mut groups: Vec<u32> = (0..random.below(4)).map(|_| self.group_together(random)).collect();
        let number = insert_place(random, broken, &groups);
        if let Some(number) = number {
            let one = random.below(self.placement.len());
            let strangers: Vec<usize> = (0..self.placement.len()).filter(|&k| self.apart(one, k)).collect();
            groups.insert(number, 1 << one | 1 << random.pick(&strangers));
        }
        self.table.co_resident = groups;
        number
    }

    /// Groups of tasks that stand apart, and between them one in which two do not.
    fn set_exclusive(&mut self, random: &mut Random, broken: bool) -> Option<usize> {
        let mut groups: Vec<u32> = (0..random.below(4)).map(|_| self.group_apart(random)).collect();
        let number = insert_place(random, broken, &groups);
        if let Some(number) = number {
            groups.insert(number, self.group_together(random) | self.group_apart(random));
        }
        self.table.exclusive = groups;
        number
    }

    fn group_together(&self, random: &mut Random) -> u32 {
        let on = (0..self.table.processors.len()).map(|processor| self.on(processor));
        let shared: Vec<u32> = on.filter(|set| set.count_ones() >= 2).collect();
        let whole = random.pick(&shared);
        let part = whole & random.draw() as u32;
        if part.count_ones() >= 2 { part } else { whole }
    }

    /// One task from each of some processors, at least two.
    fn group_apart(&self, random: &mut Random) -> u32 {
        loop {
            let first = random.below(self.placement.len());
            let mut group = 1u32 << first;
            let mut taken = 1 << self.placement[first];
            for _ in 0..1 + random.below(8) {
                let task = random.below(self.placement.len());
                let processor = 1u32 << self.placement[task];
                group |= if taken & processor == 0 { 1 << task } else { 0 };
                taken |= processor;
            }
            if group.count_ones() >= 2 {
                return group;
            }
        }
    }

    fn set_memory(&mut self, random: &mut Random, broken: bool) -> Option<usize> {
        self.table.tasks.iter_mut().for_each(|task| task.memory = random.within(1, 1000));
        let taken = self.sums(|task| u64::from(task.memory));
        let occupied: Vec<usize> = (0..taken.len()).filter(|&processor| taken[processor] > 0).collect();
        let chosen = choose(random, broken, &occupied);
        for (number, processor) in self.table.processors.iter_mut().enumerate() {
            let short = u32::from(chosen.contains(&number));
            let spare = random.pick(&[0, 0, 1, 5000]) * (1 - short);
            processor.memory = taken[number] as u32 + spare - short;
        }
        chosen.into_iter().min()
    }

    fn set_limits(&mut self, random: &mut Random, broken: bool) -> Option<usize> {
        let hyperperiod = u64::from(self.table.hyperperiod);
        let loads = self.sums(|task| u64::from(task.execution) * hyperperiod / u64::from(task.period));
        let needs: Vec<u16> = loads.iter().map(|load| (1000 * load).div_ceil(hyperperiod) as u16).collect();
        let possible: Vec<usize> = (0..needs.len()).filter(|&processor| needs[processor] >= 2).collect();
        let chosen = choose(random, broken, &possible);
        for (number, processor) in self.table.processors.iter_mut().enumerate() {
            let spare = random.pick(&[0, 0, 1, 1000]);
            processor.limit = match chosen.contains(&number) {
                true => needs[number] - 1,
                false => (needs[number].max(1) + spare).min(LARGEST_LIMIT),
            };
        }
        chosen.into_iter().min()
    }

    /// For each processor the sum of what is counted of its tasks.
    fn sums(&self, count: impl Fn(&Task) -> u64) -> Vec<u64> {
        let mut sums = vec![0; self.table.processors.len()];
        for (task, &processor) in self.table.tasks.iter().zip(&self.placement) {
            sums[usize::from(processor)] += count(task);
        }
        sums
    }

    /// Amounts at multiples of the period, or one more, so that the sum often meets the capacity.
    fn set_network(&mut self, random: &mut Random, broken: bool) -> Option<usize> {
        let mut pairs: Vec<(usize, usize)> = possible_messages(&self.table.tasks).collect();
        random.shuffle(&mut pairs);
        let carried = pairs.iter().position(|&(one, other)| self.apart(one, other));
        // It comes first and so is not cut off: there is something to carry.
        pairs.swap(0, carried.expect("some two of equal period stand apart"));
        pairs.truncate(1 + random.below(MOST_MESSAGES));
        let hyperperiod = u64::from(self.table.hyperperiod);
        let mut carried = 0;
        for (sender, receiver) in pairs {
            let period = self.table.tasks[sender].period;
            let amount = period * random.within(1, 3) + random.pick(&[0, 0, 0, 1]);
            if self.apart(sender, receiver) {
                carried += u64::from(amount) * hyperperiod / u64::from(period);
            }
            self.table.messages.push(Message { sender: sender as u8, receiver: receiver as u8, amount });
        }
        self.table.capacity = match broken {
            true => (carried - 1) / hyperperiod,
            false => carried.div_ceil(hyperperiod) + random.pick(&[0, 0, 1, 1000]),
        } as u32;
        broken.then_some(0)
    }

    fn set_deadlines(&mut self, random: &mut Random, broken: bool) -> Option<usize> {
        let responses: Vec<u32> = (0..self.placement.len()).map(|task| self.response(task)).collect();
        let chosen = choose(random, broken, &self.waiting());
        for (number, task) in self.table.tasks.iter_mut().enumerate() {
            let later = random.within(responses[number], task.period);
            task.deadline = match chosen.contains(&number) {
                true => responses[number] - 1,
                false => random.pick(&[responses[number], later]),
            };
        }
        chosen.into_iter().min()
    }
}

/// One or two of the numbers with which a rule is to be broken, or none.
fn choose(random: &mut Random, broken: bool, numbers: &[usize]) -> Vec<usize> {
    let count = if broken { 1 + random.below(2) } else { 0 };
    (0..count).map(|_| random.pick(numbers)).collect()
}

fn insert_place(random: &mut Random, broken: bool, groups: &[u32]) -> Option<usize> {
    broken.then(|| random.below(groups.len() + 1))
}

#[cfg(test)]
mod tests {
    use super::*;
    use crate::file::encode;
    use crate::judge::{RULES, judge};

    /// Every set of rules: the judgement names the first of them with its lowest number, and each of
    /// the seven is broken exactly if it was chosen.
    #[test]
    fn exactly_the_chosen_rules_are_broken() {
        let mut random = Random::new(8);
        for chosen in 0..128 {
            let set: Vec<Rule> = (0..7).filter(|k| chosen >> k & 1 == 1).map(|k| RULES[k]).collect();
            for _ in 0..20 {
                let (case, broken) = breaking(&mut random, &set);
                let placed = Placed { table: &case.table, placement: &case.placement };
                let lowest = |&rule: &Rule| Some((rule, placed.lowest_breaking(rule)?));
                assert_eq!(RULES.iter().filter_map(lowest).collect::<Vec<_>>(), broken);
                let judgement =
                    judge(&encode(&case.table), &case.placement).expect("a placement to be judged");
                assert_eq!(judgement.broken, broken.first().copied());
                assert_eq!(broken.iter().map(|&(rule, _)| rule).collect::<Vec<_>>(), set);
            }
        }
    }
}
