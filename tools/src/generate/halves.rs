//! Tables whose loads lie half way between two thousandths, a tick beside that, or at a thousandth, and whose
//! limits tell the exact load from a rounded one.

use super::sets::free_table;
use crate::model::{LARGEST_LIMIT, MOST_PROCESSORS, Processor, Table, Task, least_common_multiple};
use crate::random::Random;
use std::cmp::Reverse;

/// The two periods of a table. Mostly the second divides the first: up to a load of 1 such tasks are in time
/// if the shorter period goes first. Where it does not, H is near its limit, and they are late only at loads
/// close to 1. The last four have no load half way between two thousandths: H is 1,000, or odd.
const PERIODS: [(u32, u32); 15] = [
    (16, 4),
    (48, 6),
    (80, 16),
    (400, 25),
    (2_000, 8),
    (2_000, 100),
    (10_000, 16),
    (1_000_000, 8),
    (1_000_000, 15_625),
    (1_000_000, 997_000),
    (1_000_000, 999_000),
    (1_000, 40),
    (999, 27),
    (333_667, 2_997),
    (999_999, 996_003),
];

/// Half of the tables have a processor, called tight here, whose limit is the thousandth below the load that
/// its tasks would make, so that one of them must go elsewhere, unless the load is that very thousandth. They
/// may stand on the next processor too, which is idle without them; those of the last one on the first, which
/// seldom has room.
pub fn halves(random: &mut Random) -> Table {
    loop {
        let table = table(random);
        if !table.tasks.is_empty() {
            return table;
        }
    }
}

/// At most three tasks for each processor. On one that is not tight some may stand on a second one too.
fn table(random: &mut Random) -> Table {
    let (periods, count) = (Periods::random(random), 1 + random.below(MOST_PROCESSORS));
    let tight = random.below(2 * count);
    let (mut processors, mut tasks) = (Vec::new(), Vec::new());
    for own in 0..count {
        let is_idle = own == tight + 1 || random.once_in(8);
        let (work, share) = if is_idle { (0, Vec::new()) } else { periods.share(random) };
        let limit = periods.limit(random, work, own == tight);
        processors.push(Processor { memory: u32::MAX, limit });
        let second = |random: &mut Random| match own == tight {
            true => (own + 1) % count,
            false if random.once_in(6) => random.below(count),
            false => own,
        };
        tasks.extend(share.iter().map(|task| Task { residence: 1 << own | 1 << second(random), ..*task }));
    }
    give_priorities(random, &mut tasks);
    Table { processors, tasks: tasks.clone(), ..free_table(tasks, count) }
}

/// In any order, and so that the shorter period goes first.
fn give_priorities(random: &mut Random, tasks: &mut [Task]) {
    random.shuffle(tasks);
    let mut by_period: Vec<&mut Task> = tasks.iter_mut().collect();
    by_period.sort_by_key(|task| Reverse(task.period));
    (0..).zip(by_period).for_each(|(priority, task)| task.priority = priority);
}

struct Periods {
    first: u32,
    second: u32,
    hyperperiod: u64,
}

impl Periods {
    fn random(random: &mut Random) -> Periods {
        let (first, second) = random.pick(&PERIODS);
        Periods { first, second, hyperperiod: least_common_multiple(first, second) }
    }

    /// All, or the thousandth above the load; for a tight processor the one below it, but at least 1.
    fn limit(&self, random: &mut Random, work: u64, is_tight: bool) -> u16 {
        let thousandths = 1000 * work;
        let limit = match (work, is_tight) {
            (0, _) => LARGEST_LIMIT.into(),
            (_, true) => (thousandths / self.hyperperiod).max(1),
            (_, false) => random.pick(&[thousandths.div_ceil(self.hyperperiod), LARGEST_LIMIT.into()]),
        };
        limit as u16
    }

    /// The work of a processor in H, and tasks that do it.
    fn share(&self, random: &mut Random) -> (u64, Vec<Task>) {
        loop {
            let work = self.work(random);
            if let Some(tasks) = self.tasks(random, work) {
                return (work, tasks);
            }
        }
    }

    /// Ticks in H: at a half, one tick of H or of a task's C beside it, or at the thousandth next to it.
    /// Often the half is one of the two least or greatest. Where H has none, the last tick before it stands
    /// for it.
    fn work(&self, random: &mut Random) -> u64 {
        // In half thousandths: every so many fall on a tick. If that is even, no odd number of them does.
        let step = match least_common_multiple(2000, self.hyperperiod as u32) / self.hyperperiod {
            step if step % 2 == 1 => step,
            _ => 1,
        };
        let count = 1000 / step;
        let any = random.below(count as usize) as u64;
        let half = step * (2 * random.pick(&[0, 1, count - 2, count - 1, any, any, any, any]) + 1);
        let ticks = half * self.hyperperiod / 2000;
        let beside = random.pick(&[1, self.hyperperiod / u64::from(self.first)]);
        match random.below(8) {
            0..3 => ticks,
            3 | 4 => ticks.saturating_sub(beside),
            5 | 6 => ticks + beside,
            _ => random.pick(&[half - 1, half + 1]) * self.hyperperiod / 2000,
        }
    }

    /// Up to two tasks of the first period and up to one of the second that do this work in H. None if no C
    /// that was tried for the second leaves a whole one for the first.
    fn tasks(&self, random: &mut Random, work: u64) -> Option<Vec<Task>> {
        let [jobs, others] = [self.first, self.second].map(|period| self.hyperperiod / u64::from(period));
        let most = work / others;
        let any = u64::from(random.within(0, most as u32));
        let of_second =
            (random.pick(&[0, any])..=most).find(|tried| (work - tried * others).is_multiple_of(jobs))?;
        let of_first = ((work - of_second * others) / jobs) as u32;
        let part = if of_first > 1 && random.once_in(3) { random.within(1, of_first - 1) } else { 0 };
        let times = [(part, self.first), (of_first - part, self.first), (of_second as u32, self.second)];
        Some(times.into_iter().filter(|&(execution, _)| execution > 0).map(task).collect())
    }
}

fn task((execution, period): (u32, u32)) -> Task {
    Task { execution, period, deadline: period, memory: 0, priority: 0, residence: 0 }
}

#[cfg(test)]
mod tests {
    use super::*;
    use crate::comparison::misreading::first_by_rounded_loads;
    use crate::file::encode;
    use crate::judge::Placed;
    use crate::reader::read;
    use crate::search::Truth;
    use crate::search::enumerated::Enumerated;
    use crate::search::pruned::Pruned;
    use std::iter::repeat_with;

    fn tables() -> Vec<Table> {
        let mut random = Random::new(51);
        repeat_with(|| halves(&mut random)).take(2_000).collect()
    }

    fn first(table: &Table) -> Option<Vec<u8>> {
        Pruned::of(table).first().map(<[u8]>::to_vec)
    }

    #[test]
    fn every_table_is_read() {
        for table in tables() {
            assert_eq!(read(&encode(&table)).as_ref(), Ok(&table));
        }
    }

    /// Half way between two thousandths, at most one tick of H below and above that, and at a thousandth.
    fn places(load: u64, hyperperiod: u64) -> [bool; 4] {
        let above = 2000 * load % (2 * hyperperiod);
        let is_below = above < hyperperiod && hyperperiod <= above + 2000;
        let is_above = hyperperiod < above && above <= hyperperiod + 2000;
        [above == hyperperiod, is_below, is_above, above == 0]
    }

    /// What is frequent in the first placements: loads at each place, for an odd H, one up to 10,000, a
    /// million and beyond; 0.5, 1.5, 998.5 and 999.5 thousandths; processors with no, one and more tasks.
    #[test]
    fn every_sort_of_load_is_frequent() {
        let (mut found, mut met, mut ends, mut tasks) = (0, [[0; 4]; 4], [0; 4], [0; 3]);
        for table in tables() {
            let Some(placement) = first(&table) else {
                continue;
            };
            let (placed, hyperperiod) =
                (Placed { table: &table, placement: &placement }, u64::from(table.hyperperiod));
            let size = match hyperperiod {
                odd if odd % 2 == 1 => 0,
                ..=10_000 => 1,
                10_001..=1_000_000 => 2,
                _ => 3,
            };
            found += 1;
            for on in 0..table.processors.len() {
                let load = placed.load(on);
                let at = |end: u64| 2000 * load == end * hyperperiod;
                count(&mut met[size], places(load, hyperperiod));
                count(&mut ends, [1, 3, 1997, 1999].map(at));
                tasks[placed.on(on).count_ones().min(2) as usize] += 1;
            }
        }
        assert_eq!(met[0][0], 0, "half way with an odd H");
        let least = met.iter().flatten().skip(1).chain(&ends).chain(&tasks).min();
        assert!(found >= 1_500 && least >= Some(&50), "{found} {met:?} {ends:?} {tasks:?}");
    }

    fn count<const N: usize>(counts: &mut [u64; N], hold: [bool; N]) {
        counts.iter_mut().zip(hold).for_each(|(count, holds)| *count += u64::from(holds));
    }

    /// Where the limits are tested on rounded loads there is a placement more often, or an earlier one; a
    /// load within a limit is still within it when it is rounded, so never a later one.
    #[test]
    fn rounded_loads_keep_more_limits() {
        let (mut instead_of_none, mut earlier) = (0, 0);
        for table in tables().into_iter().filter(Enumerated::is_quick) {
            match (first(&table), first_by_rounded_loads(&table)) {
                (None, rounded) => instead_of_none += u64::from(rounded.is_some()),
                (Some(exact), Some(rounded)) if rounded <= exact => earlier += u64::from(rounded < exact),
                _ => panic!("a later one, or none: {table:?}"),
            }
        }
        assert!(instead_of_none >= 30 && earlier >= 30, "{instead_of_none} and {earlier}");
    }
}
