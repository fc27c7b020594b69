//! Compares a conflict check with the independent one.

use crate::conflict::conflict_code;
use crate::file::encode;
use crate::generate::faulty::refused_file;
use crate::generate::masks::{masks, table_of_sets};
use crate::random::Random;

/// The first input that is answered differently; codes as the C function returns them.
#[derive(Debug)]
pub struct Difference {
    pub file: Vec<u8>,
    pub mask: u32,
    pub expected: u64,
    pub found: u64,
}

/// How many inputs got each answer.
#[derive(Debug, Default)]
pub struct Tally {
    pub no_conflict: u64,
    pub not_minimal: u64,
    pub minimal: u64,
    pub bad_mask: u64,
    pub unreadable: u64,
}

impl Tally {
    pub fn counts(&self) -> [u64; 5] {
        [self.no_conflict, self.not_minimal, self.minimal, self.bad_mask, self.unreadable]
    }

    fn note(&mut self, code: u64) {
        let count = match (code >> 32, code & 0xFFFF_FFFF) {
            (0, 0) => &mut self.no_conflict,
            (0, 1) => &mut self.not_minimal,
            (0, _) => &mut self.minimal,
            (15, _) => &mut self.bad_mask,
            _ => &mut self.unreadable,
        };
        *count += 1;
    }
}

type Check<'a> = &'a dyn Fn(&[u8], u32) -> u64;

struct Comparison<'a> {
    candidate: Check<'a>,
    random: Random,
    tally: Tally,
}

/// Runs through generated files, each with about twenty masks.
pub fn compare(seed: u64, files: usize, candidate: Check) -> Result<Tally, Difference> {
    let mut comparison = Comparison { candidate, random: Random::new(seed), tally: Tally::default() };
    for round in 0..files {
        let table = table_of_sets(&mut comparison.random, round);
        let (file, masks) = (encode(&table), masks(&mut comparison.random, &table));
        masks.into_iter().try_for_each(|mask| comparison.check(&file, mask))?;
        if round.is_multiple_of(8) {
            comparison.damaged(file)?;
        }
    }
    Ok(comparison.tally)
}

impl Comparison<'_> {
    fn check(&mut self, file: &[u8], mask: u32) -> Result<(), Difference> {
        let expected = conflict_code(file, mask);
        let found = (self.candidate)(file, mask);
        if expected != found {
            return Err(Difference { file: file.to_vec(), mask, expected, found });
        }
        self.tally.note(expected);
        Ok(())
    }

    /// A refusal of the file comes before one of the mask.
    fn damaged(&mut self, mut file: Vec<u8>) -> Result<(), Difference> {
        let place = self.random.below(file.len());
        file[place] ^= 1 << self.random.below(8);
        let mask = self.random.draw() as u32 & 7;
        self.check(&file, mask)?;
        let (refused, _) = refused_file(&mut self.random);
        self.check(&refused, mask)
    }
}

#[cfg(test)]
mod tests {
    use super::*;
    use crate::comparison::misreading::WRONG_LATENESS;
    use crate::conflict::answer;
    use crate::model::{Table, Task};
    use crate::reader::read;
    use crate::schedule::late;

    fn detected(what: &str, wrong: Check) {
        assert!(compare(7, 300, wrong).is_err(), "not detected: {what}");
    }

    /// Answers as the contract does, but for tasks that are changed after reading.
    fn detected_tasks(what: &str, change: &dyn Fn(&mut Task)) {
        detected(what, &|file, mask| match read(file) {
            Ok(mut table) if conflict_code(file, mask) >> 32 == 0 => {
                table.tasks.iter_mut().for_each(change);
                conflict_code(&encode(&table), mask)
            }
            _ => conflict_code(file, mask),
        });
    }

    /// Replaces an answer 0, 1 or 2.
    fn detected_answer(what: &str, replace: &dyn Fn(&Table, u32, u64) -> u64) {
        detected(what, &|file, mask| match (read(file), conflict_code(file, mask)) {
            (Ok(table), answer @ 0..=2) => replace(&table, mask, answer),
            (_, refusal) => refusal,
        });
    }

    #[test]
    fn the_check_is_not_suspected_itself() {
        let tally = compare(7, 300, &conflict_code).expect("equal to itself");
        assert!(tally.counts().iter().all(|&count| count > 20), "{tally:?}");
    }

    #[test]
    fn wrong_answers_are_detected() {
        detected_answer("always 0", &|_, _, _| 0);
        detected_answer("1 and 2 exchanged", &|_, _, answer| (3 - answer) % 3);
        detected_answer("every late set minimal", &|_, _, answer| 2 * answer.min(1));
        detected_answer("one task tried only", &|table, mask, answer| match answer {
            1 if !late(&table.tasks, mask & (mask - 1)) => 2,
            _ => answer,
        });
        detected_answer("pairs only are minimal", &|_, mask, answer| match answer {
            2 if mask.count_ones() > 2 => 1,
            _ => answer,
        });
    }

    #[test]
    fn wrong_lateness_is_detected() {
        for (what, wrong) in WRONG_LATENESS {
            detected_answer(what, &|table, mask, _| answer(mask, &|set| wrong(&table.tasks, set)));
        }
    }

    #[test]
    fn misread_tasks_are_detected() {
        detected_tasks("deadline taken from the period", &|task| task.deadline = task.period);
        detected_tasks("priorities the other way", &|task| task.priority = !task.priority);
        detected_tasks("deadline one later", &|task| task.deadline = task.period.min(task.deadline + 1));
        detected_tasks("deadline one earlier", &|task| task.deadline = task.execution.max(task.deadline - 1));
    }

    #[test]
    fn wrong_refusals_are_detected() {
        detected("one task is enough", &|file, mask| match conflict_code(file, mask) >> 32 {
            15 if mask == 1 => 0,
            _ => conflict_code(file, mask),
        });
        detected("unknown tasks overlooked", &|file, mask| match read(file) {
            Ok(table) => conflict_code(file, mask & ((1 << table.tasks.len()) - 1)),
            Err(refusal) => refusal.code(),
        });
        detected("the mask before the file", &|file, mask| match mask.count_ones() {
            0 | 1 => 15 << 32,
            _ => conflict_code(file, mask),
        });
        detected("place not 0", &|file, mask| match conflict_code(file, mask) {
            code if code >> 32 == 15 => code + file.len() as u64,
            code => code,
        });
    }
}
