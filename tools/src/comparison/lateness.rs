//! Compares a count of the late ones among some sets with the independent one.

use crate::conflict::late_sets;
use crate::file::encode;
use crate::generate::faulty::refused_file;
use crate::generate::masks::{masks, table_of_sets};
use crate::random::Random;

/// The first input that is counted differently.
#[derive(Debug)]
pub struct Difference {
    pub file: Vec<u8>,
    pub sets: Vec<u32>,
    pub expected: u64,
    pub found: u64,
}

/// How many sets were of each sort, each counted alone, and how many lists were counted whole.
#[derive(Debug, Default)]
pub struct Tally {
    pub late: u64,
    pub in_time: u64,
    /// With a task that the file does not have.
    pub unknown: u64,
    /// Sets of a file that is refused.
    pub refused: u64,
    pub lists: u64,
}

/// A way to count.
pub type Count<'a> = &'a dyn Fn(&[u8], &[u32]) -> u64;

/// Runs through so many generated tables, each with some twenty sets, and as many files that are refused.
pub fn compare(seed: u64, files: usize, candidate: Count) -> Result<Tally, Difference> {
    let mut random = Random::new(seed);
    let mut tally = Tally::default();
    for round in 0..files {
        let table = table_of_sets(&mut random, round);
        let (file, sets) = (encode(&table), masks(&mut random, &table));
        for &set in &sets {
            let late = check(candidate, &file, &[set])?;
            tally.note(set >> table.tasks.len() != 0, late);
        }
        for list in lists(&mut random, sets) {
            check(candidate, &file, &list)?;
            tally.lists += 1;
        }
        let (unreadable, _) = refused_file(&mut random);
        let sets: Vec<u32> = (0..random.below(4)).map(|_| random.draw() as u32 & 7).collect();
        check(candidate, &unreadable, &sets)?;
        tally.refused += sets.len() as u64;
    }
    Ok(tally)
}

fn check(candidate: Count, file: &[u8], sets: &[u32]) -> Result<u64, Difference> {
    let (expected, found) = (late_sets(file, sets), candidate(file, sets));
    match expected == found {
        true => Ok(expected),
        false => Err(Difference { file: file.to_vec(), sets: sets.to_vec(), expected, found }),
    }
}

/// No set, all of them in any order, and these with some of them again.
fn lists(random: &mut Random, mut sets: Vec<u32>) -> [Vec<u32>; 3] {
    random.shuffle(&mut sets);
    let again = &sets[..random.below(sets.len())];
    [Vec::new(), sets.clone(), [&sets, again].concat()]
}

impl Tally {
    fn note(&mut self, unknown: bool, late: u64) {
        let count = match (unknown, late) {
            (true, _) => &mut self.unknown,
            (false, 0) => &mut self.in_time,
            (false, _) => &mut self.late,
        };
        *count += 1;
    }
}

#[cfg(test)]
mod tests {
    use super::*;
    use crate::comparison::misreading::WRONG_LATENESS;
    use crate::model::Table;
    use crate::reader::read;
    use crate::schedule::{Lateness, late};

    fn detected(what: &str, wrong: Count) {
        assert!(compare(13, 200, wrong).is_err(), "not detected: {what}");
    }

    /// Counts the sets that pass a test.
    fn detected_test(what: &str, test: &dyn Fn(&Table, u32) -> bool) {
        detected(what, &|file, sets| match read(file) {
            Ok(table) => sets.iter().filter(|&&set| test(&table, set)).count() as u64,
            Err(_) => 0,
        });
    }

    #[test]
    fn the_count_is_not_suspected_itself() {
        let tally = compare(13, 200, &late_sets).expect("equal to itself");
        let Tally { late, in_time, unknown, refused, lists } = tally;
        assert!([late, in_time, unknown, refused, lists].iter().all(|&count| count > 100), "{tally:?}");
    }

    #[test]
    fn wrong_lateness_is_detected() {
        let known = |table: &Table, set: u32| set >> table.tasks.len() == 0;
        let always: [(&str, Lateness); 2] = [("none late", |_, _| false), ("all late", |_, _| true)];
        for (what, wrong) in WRONG_LATENESS.into_iter().chain(always) {
            detected_test(what, &|table, set| known(table, set) && wrong(&table.tasks, set));
        }
        detected_test("unknown tasks late", &|table, set| !known(table, set) || late(&table.tasks, set));
        detected_test("unknown tasks left out", &|table, set| {
            late(&table.tasks, set & ((1 << table.tasks.len()) - 1))
        });
    }

    #[test]
    fn wrong_counts_are_detected() {
        detected("the first set alone", &|file, sets| late_sets(file, &sets[..sets.len().min(1)]));
        detected("the last set left out", &|file, sets| {
            late_sets(file, &sets[..sets.len().saturating_sub(usize::from(sets.len() > 1))])
        });
        detected("whether there is one", &|file, sets| late_sets(file, sets).min(1));
        detected("each set once", &|file, sets| {
            let mut once = sets.to_vec();
            once.sort_unstable();
            once.dedup();
            late_sets(file, &once)
        });
        detected("up to the first unknown set", &|file, sets| {
            let tasks = read(file).map_or(0, |table| table.tasks.len());
            let known = sets.iter().take_while(|&&set| set >> tasks == 0).count();
            late_sets(file, &sets[..known])
        });
        detected("one for no set", &|file, sets| late_sets(file, sets) + u64::from(sets.is_empty()));
        detected("the refusal", &|file, sets| match read(file) {
            Err(refusal) => refusal.code(),
            Ok(_) => late_sets(file, sets),
        });
    }
}
