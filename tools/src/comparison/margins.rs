//! Compares a way of judging that writes the whole judgement with the independent one on small tables, in
//! which margins of every sort are frequent. How first jobs end there is counted by the tick run.

use super::judging::Difference;
use super::responses::{Answer, JudgeTasks, Margins, answer};
use crate::file::encode;
use crate::generate::crowded::tiny_table;
use crate::judge::{Placed, judge_tasks};
use crate::margin::Margin;
use crate::model::Table;
use crate::random::Random;
use crate::schedule::{Run, members, run};

/// What was met.
#[derive(Debug, Default)]
pub struct Met {
    pub placements: u64,
    /// Placements that break a rule other than the deadlines.
    pub breaking_rules: u64,
    /// Of each task.
    pub margins: Margins,
    /// First jobs that end at their period, one tick past it, and never.
    pub at_period: u64,
    pub one_past_period: u64,
    pub never: u64,
}

impl Met {
    /// A task with its margin. The run is over a hyperperiod at least.
    pub fn note(&mut self, run: &Run, task: usize, margin: Margin) {
        let (finish, period) = (run.first_finish[task], run.tasks[task].period);
        self.margins.note(&[margin.number()]);
        self.at_period += u64::from(finish == period);
        self.one_past_period += u64::from(finish == period + 1);
        self.never += u64::from(run.is_waiting(task));
    }

    fn note_placement(&mut self, table: &Table, placement: &[u8], broken: i32) {
        let placed = Placed { table, placement };
        let margins = placed.margins();
        for set in (0..table.processors.len()).map(|processor| placed.on(processor)) {
            let run = run(&table.tasks, set, 2 * table.hyperperiod);
            members(set).for_each(|task| self.note(&run, task, margins[task]));
        }
        self.placements += 1;
        self.breaking_rules += u64::from((101..107).contains(&broken));
    }

    /// The sort of task that was met least often.
    pub fn least(&self) -> u64 {
        self.margins.least().min(self.at_period).min(self.one_past_period).min(self.never)
    }
}

/// Compares so many placements, none of which is refused.
pub fn compare(seed: u64, placements: usize, candidate: JudgeTasks) -> Result<Met, Box<Difference<Answer>>> {
    let mut random = Random::new(seed);
    let mut met = Met::default();
    for _ in 0..placements {
        let table = tiny_table(&mut random);
        let (file, placement) = (encode(&table), placement(&mut random, &table));
        let length = 2 * placement.len() + 2;
        let expected = answer(&judge_tasks, &file, &placement, length);
        let found = answer(candidate, &file, &placement, length);
        if expected != found {
            return Err(Box::new(Difference { file, placement, expected, found }));
        }
        met.note_placement(&table, &placement, expected.buffer[0]);
    }
    Ok(met)
}

/// Half of the time all on one processor, where they have most to do with each other.
fn placement(random: &mut Random, table: &Table) -> Vec<u8> {
    let processors = table.processors.len();
    let (together, one) = (random.once_in(2), random.below(processors));
    let on = |_| if together { one } else { random.below(processors) } as u8;
    table.tasks.iter().map(on).collect()
}

#[cfg(test)]
mod tests {
    use super::*;
    use crate::comparison::misreading::{WRONG_MARGINS, misjudged};

    #[test]
    fn the_judge_is_not_suspected_itself() {
        let met = compare(41, 30_000, &judge_tasks).expect("equal to itself");
        assert!(met.least() >= 500 && met.breaking_rules >= 5_000, "{met:?}");
    }

    #[test]
    fn wrong_margins_are_detected() {
        for (what, change) in WRONG_MARGINS {
            let wrong =
                |file: &[u8], placement: &[u8], out: &mut [i32]| misjudged(change, file, placement, out);
            assert!(compare(42, 1_000, &wrong).is_err(), "not detected: {what}");
        }
    }
}
