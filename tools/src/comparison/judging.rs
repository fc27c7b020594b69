//! Compares a way of judging placements with the independent one.

use crate::file::encode;
use crate::generate::around::{Case, breaking};
use crate::generate::faulty::refused_file;
use crate::generate::tables::{Shape, table};
use crate::judge::{RULES, Rule, judge_number};
use crate::model::{Table, Task};
use crate::random::Random;
use std::collections::BTreeMap;
use std::fmt::Debug;

/// The first input that is judged differently.
#[derive(Debug)]
pub struct Difference<A> {
    pub file: Vec<u8>,
    pub placement: Vec<u8>,
    pub expected: A,
    pub found: A,
}

/// How many inputs ended in each number: a refusal's, 0 or a rule's.
pub type Tally = BTreeMap<u16, u64>;

/// Every number in which a judgement can end.
pub const NUMBERS: [u16; 21] =
    [0, 1, 2, 3, 4, 5, 6, 7, 8, 9, 10, 11, 13, 14, 101, 102, 103, 104, 105, 106, 107];

/// A way of judging; the answer is the number alone or a whole judgement.
pub type Judge<'a, A> = &'a dyn Fn(&[u8], &[u8]) -> A;

struct Comparison<'a, A> {
    expected: Judge<'a, A>,
    candidate: Judge<'a, A>,
    random: Random,
    tally: Tally,
}

/// Compares some 1,300 inputs in a round.
pub fn compare<A: PartialEq + Debug>(
    seed: u64,
    rounds: usize,
    expected: Judge<A>,
    candidate: Judge<A>,
) -> Result<Tally, Difference<A>> {
    let random = Random::new(seed);
    let mut comparison = Comparison { expected, candidate, random, tally: Tally::new() };
    for _ in 0..rounds {
        for _ in 0..128 {
            let rules = random_rules(&mut comparison.random);
            let (case, _) = breaking(&mut comparison.random, &rules);
            comparison.variations(case)?;
        }
        comparison.tables_at_the_limits(10)?;
        comparison.unreadable(50)?;
    }
    Ok(comparison.tally)
}

/// Rules to break, each of the seven equally often the first of them, and none as often.
fn random_rules(random: &mut Random) -> Vec<Rule> {
    let first = random.below(RULES.len() + 1);
    let chosen = RULES.iter().enumerate().filter(|&(k, _)| k == first || (k > first && random.once_in(2)));
    chosen.map(|(_, &rule)| rule).collect()
}

impl<A: PartialEq + Debug> Comparison<'_, A> {
    fn check(&mut self, file: &[u8], placement: &[u8]) -> Result<(), Difference<A>> {
        let expected = (self.expected)(file, placement);
        let found = (self.candidate)(file, placement);
        if expected != found {
            return Err(Difference { file: file.to_vec(), placement: placement.to_vec(), expected, found });
        }
        *self.tally.entry(judge_number(file, placement)).or_default() += 1;
        Ok(())
    }

    /// The placement of the case, the same with the priorities the other way, with some tasks moved, and in
    /// ways that are refused. Priorities break no placement rule, but tasks that are in time with them often
    /// are far from it the other way.
    fn variations(&mut self, case: Case) -> Result<(), Difference<A>> {
        let file = encode(&case.table);
        let placement = case.placement;
        self.check(&file, &placement)?;
        let other_way = |task: &Task| Task { priority: !task.priority, ..*task };
        let tasks = case.table.tasks.iter().map(other_way).collect();
        self.check(&encode(&Table { tasks, ..case.table.clone() }), &placement)?;
        let mut moved = placement.clone();
        for _ in 0..4 {
            let task = self.random.below(moved.len());
            moved[task] = self.random.below(case.table.processors.len()) as u8;
            self.check(&file, &moved)?;
        }
        for unknown in [case.table.processors.len() as u8, 255] {
            let task = self.random.below(moved.len());
            moved[task] = unknown;
            self.check(&file, &moved)?;
        }
        let length = self.random.below(30);
        moved.resize(length, 0);
        self.check(&file, &moved)?;
        self.check(&file, &placement[1..])
    }

    fn tables_at_the_limits(&mut self, count: usize) -> Result<(), Difference<A>> {
        for _ in 0..count {
            let shape = Shape::random(&mut self.random);
            let table = table(&mut self.random, shape);
            let place = |_| self.random.below(shape.processors) as u8;
            let placement: Vec<u8> = (0..table.tasks.len()).map(place).collect();
            self.check(&encode(&table), &placement)?;
        }
        Ok(())
    }

    /// A refusal of the file comes before one of the placement.
    fn unreadable(&mut self, count: usize) -> Result<(), Difference<A>> {
        for _ in 0..count {
            let (file, _) = refused_file(&mut self.random);
            let (length, processor) = (self.random.below(25), self.random.below(9) as u8);
            self.check(&file, &vec![processor; length])?;
        }
        Ok(())
    }
}

#[cfg(test)]
mod tests {
    use super::*;
    use crate::comparison::misreading::MISREADINGS;
    use crate::judge::{Judged, Judgement, judge};
    use crate::margin::Margin;
    use crate::model::{CAUSES_OF_A_FILE, Cause, Refusal};
    use crate::reader::read;

    fn detected(what: &str, wrong: Judge<Judged>) {
        assert!(compare(9, 2, &judge, wrong).is_err(), "not detected: {what}");
    }

    /// Judges another table than the file's.
    fn detected_table(what: &str, change: &dyn Fn(&mut Table)) {
        detected(what, &|file, placement| match (read(file), judge(file, placement)) {
            (Ok(mut table), Ok(_)) => {
                change(&mut table);
                judge(&encode(&table), placement)
            }
            (_, answer) => answer,
        });
    }

    fn detected_judgement(what: &str, change: &dyn Fn(&mut Judgement)) {
        detected(what, &|file, placement| {
            let mut answer = judge(file, placement);
            answer.iter_mut().for_each(change);
            answer
        });
    }

    #[test]
    fn the_judge_is_not_suspected_itself() {
        let tally = compare(9, 2, &judge, &judge).expect("equal to itself");
        for number in NUMBERS {
            assert!(tally.get(&number).is_some_and(|&count| count >= 3), "{number} in {tally:?}");
        }
    }

    #[test]
    fn judging_another_table_is_detected() {
        for (what, misread) in MISREADINGS {
            detected_table(what, &misread);
        }
        detected_table("limit one more", &|table| {
            table.processors[0].limit = 1000.min(table.processors[0].limit + 1)
        });
    }

    #[test]
    fn wrong_judgements_are_detected() {
        detected_judgement("number concerned always 0", &|judgement| {
            judgement.broken = judgement.broken.map(|(rule, _)| (rule, 0));
        });
        detected_judgement("no responses beside a broken rule", &|judgement| {
            if judgement.broken.is_some() {
                judgement.responses = [0; 24];
            }
        });
        detected_judgement("margins beyond the tasks", &|judgement| judgement.margins[23] = Margin::Beyond);
        detected_judgement("late margins of 0", &|judgement| {
            let late = judgement.margins.iter_mut().filter(|margin| margin.number() < 0);
            late.for_each(|margin| *margin = Margin::Known(0));
        });
        detected_judgement("the first task alone", &|judgement| {
            judgement.broken =
                judgement.broken.filter(|&(rule, number)| rule != Rule::Deadline || number == 0);
        });
        detected_judgement("memory before exclusion", &|judgement| {
            judgement.broken = judgement.broken.map(|(rule, number)| match rule {
                Rule::Exclusion => (Rule::Memory, number),
                _ => (rule, number),
            });
        });
    }

    #[test]
    fn wrong_refusals_are_detected() {
        for cause in CAUSES_OF_A_FILE {
            detected("the place of the next byte", &|file, placement| match judge(file, placement) {
                Err(refusal) if refusal.cause == cause => {
                    Err(Refusal { place: refusal.place + 1, ..refusal })
                }
                answer => answer,
            });
        }
        detected("the last unknown processor", &|file, placement| match judge(file, placement) {
            Err(Refusal { cause: Cause::UnknownProcessor, .. }) => {
                Err(Refusal { cause: Cause::UnknownProcessor, place: placement.len() - 1 })
            }
            answer => answer,
        });
        detected("longer placements judged", &|file, placement| match read(file) {
            Ok(table) if placement.len() > table.tasks.len() => judge(file, &placement[..table.tasks.len()]),
            _ => judge(file, placement),
        });
        detected("the placement before the file", &|file, placement| match placement.contains(&8) {
            true => Err(Refusal { cause: Cause::UnknownProcessor, place: 0 }),
            false => judge(file, placement),
        });
    }
}
