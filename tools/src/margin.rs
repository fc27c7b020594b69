//! The margin of each task: its deadline minus the least solution of the response equation, as the tick run
//! of 01 "Response and run" shows it. The equation itself is not used here.

use crate::model::Task;
use crate::schedule::members;
use std::cmp::Reverse;
use std::fmt;
use std::num::ParseIntError;
use std::str::FromStr;

#[derive(Clone, Copy, Debug, PartialEq, Eq)]
pub enum Margin {
    /// Negative for a task that is late by so much.
    Known(i32),
    /// The least solution is above the period, or there is none.
    Beyond,
}

impl Margin {
    /// For a first job that is finished by then, if it is.
    fn of(task: &Task, finish: Option<u32>) -> Margin {
        match finish {
            Some(finish) if finish <= task.period => Margin::Known(task.deadline as i32 - finish as i32),
            _ => Margin::Beyond,
        }
    }

    /// As the C entry writes it. No known margin has the number of beyond: D and T are at most 1,000,000.
    pub fn number(self) -> i32 {
        match self {
            Margin::Known(margin) => margin,
            Margin::Beyond => i32::MIN,
        }
    }
}

const BEYOND: &str = "beyond";

impl fmt::Display for Margin {
    fn fmt(&self, out: &mut fmt::Formatter) -> fmt::Result {
        match self {
            Margin::Known(margin) => margin.fmt(out),
            Margin::Beyond => BEYOND.fmt(out),
        }
    }
}

impl FromStr for Margin {
    type Err = ParseIntError;

    fn from_str(word: &str) -> Result<Margin, ParseIntError> {
        if word == BEYOND { Ok(Margin::Beyond) } else { word.parse().map(Margin::Known) }
    }
}

/// The unfinished jobs of a task. They are alike but for their age, and as the oldest goes first, the others
/// have had no tick.
struct Queue {
    number: usize,
    task: Task,
    jobs: u32,
    /// The ticks of the oldest.
    had: u32,
    next_release: u32,
    first_finish: Option<u32>,
}

impl Queue {
    fn release(&mut self, now: u32) {
        if self.next_release == now {
            self.jobs += 1;
            self.next_release += self.task.period;
        }
    }

    /// Gives the oldest job its ticks from now on, at most so many, and returns how many it took.
    fn run(&mut self, now: u32, most: u32) -> u32 {
        let ticks = most.min(self.task.execution - self.had);
        self.had += ticks;
        if self.had == self.task.execution {
            (self.jobs, self.had) = (self.jobs - 1, 0);
            self.first_finish.get_or_insert(now + ticks);
        }
        ticks
    }

    /// Whether the first job could still be finished within the period.
    fn is_open(&self, now: u32) -> bool {
        self.first_finish.is_none() && now < self.task.period
    }
}

/// The margins of a set's tasks when it runs alone on one processor. The first job of a task is finished at
/// the least time that holds it and all jobs of higher priority released before, which is the least solution.
///
/// Between two releases each tick goes to the same job, until it is finished: so the run goes from one of
/// these events to the next. It ends when no first job is open any more.
pub fn margins(tasks: &[Task], set: u32) -> impl Iterator<Item = (usize, Margin)> {
    let queue =
        |number| Queue { number, task: tasks[number], jobs: 0, had: 0, next_release: 0, first_finish: None };
    let mut queues: Vec<Queue> = members(set).map(queue).collect();
    queues.sort_by_key(|queue| Reverse(queue.task.priority));
    let mut now = 0;
    while queues.iter().any(|queue| queue.is_open(now)) {
        queues.iter_mut().for_each(|queue| queue.release(now));
        let next_release = queues.iter().map(|queue| queue.next_release).min().expect("a task is open");
        let first = queues.iter_mut().find(|queue| queue.jobs > 0).expect("its first job is unfinished");
        now += first.run(now, next_release - now);
    }
    queues.into_iter().map(|queue| (queue.number, Margin::of(&queue.task, queue.first_finish)))
}

#[cfg(test)]
mod tests {
    use super::*;
    use crate::comparison::margins::Met;
    use crate::examples::task;
    use crate::generate::sets::{load, random_set};
    use crate::model::hyperperiod;
    use crate::random::Random;
    use crate::schedule::{all, first_solution, run};

    /// Of all tasks together, as the C entry writes them.
    fn numbers(tasks: &[Task]) -> Vec<i32> {
        let mut numbers = vec![0; tasks.len()];
        margins(tasks, all(tasks)).for_each(|(task, margin)| numbers[task] = margin.number());
        numbers
    }

    const BEYOND: i32 = i32::MIN;

    /// 01's table of cases. Where the margin is beyond, the lower task ends at 7 and at 5, one tick past its
    /// period: the ticks go to A A B B A A B, and to B B B A A.
    #[test]
    fn cases_of_the_contract() {
        let three = |deadline| [task(1, 4, 4, 3), task(2, 6, 6, 2), task(3, 12, deadline, 1)];
        assert_eq!(numbers(&three(10)), [3, 3, 0]);
        assert_eq!(numbers(&three(9)), [3, 3, -1]);
        assert_eq!(numbers(&[task(2, 4, 4, 2), task(2, 4, 4, 1)]), [2, 0]);
        assert_eq!(numbers(&[task(2, 4, 4, 2), task(3, 6, 6, 1)]), [2, BEYOND]);
        assert_eq!(numbers(&[task(2, 4, 4, 1), task(3, 6, 6, 2)]), [BEYOND, 3]);
        // With one tick more in its period it would be known.
        assert_eq!(numbers(&[task(2, 4, 4, 2), task(3, 7, 6, 1)]), [2, -1]);
    }

    /// The upper task leaves one tick in a thousand: 999 of them are there at 999,000, 1,000 at 1,000,000.
    #[test]
    fn long_periods() {
        let above = |execution, deadline| {
            numbers(&[task(999, 1000, 1000, 2), task(execution, 1_000_000, deadline, 1)])
        };
        assert_eq!(above(999, 1_000_000), [1, 1_000]);
        assert_eq!(above(999, 999), [1, 999 - 999_000]);
        assert_eq!(above(1_000, 1_000_000), [1, 0]);
        assert_eq!(above(1_000, 1_000), [1, 1_000 - 1_000_000]);
        assert_eq!(above(1_001, 1_000_000), [1, BEYOND]);
        // The least and the greatest margin.
        let ends = [task(999_999, 1_000_000, 1_000_000, 2), task(1, 1_000_000, 1, 1)];
        assert_eq!(numbers(&ends), [1, -999_999]);
        assert_eq!(numbers(&[task(1, 1_000_000, 1_000_000, 1)]), [999_999]);
        // Nothing is left below a task that takes every tick.
        let full: Vec<Task> = (0..23).map(|k| task(1, 1_000_000, 1_000_000, k)).collect();
        let full = [full, vec![task(1, 1, 1, 99)]].concat();
        assert_eq!(numbers(&full), [vec![BEYOND; 23], vec![0]].concat());
    }

    /// A part of a set runs as if the others did not exist.
    #[test]
    fn a_part_runs_alone() {
        let tasks = [task(1, 4, 4, 30), task(2, 6, 6, 20), task(3, 12, 9, 10)];
        let part = margins(&tasks, 0b110).collect::<Vec<_>>();
        assert_eq!(part, [(1, Margin::Known(4)), (2, Margin::Known(4))]);
        assert_eq!(margins(&tasks, 0).count(), 0);
    }

    /// The tasks that go before one.
    fn above(tasks: &[Task], own: usize) -> Vec<Task> {
        tasks.iter().filter(|other| other.priority > tasks[own].priority).copied().collect()
    }

    #[test]
    fn the_tick_run_and_the_equation_agree() {
        let mut random = Random::new(40);
        let mut met = Met::default();
        for _ in 0..300_000 {
            let tasks = random_set(&mut random);
            let run = run(&tasks, all(&tasks), 2 * hyperperiod(&tasks));
            for (task, margin) in margins(&tasks, all(&tasks)) {
                let own = &tasks[task];
                let by_run = Some(run.first_finish[task]).filter(|finish| (1..=own.period).contains(finish));
                let solution = first_solution(&tasks, all(&tasks), task, own.period);
                assert_eq!(by_run, solution, "{task} of {tasks:?}");
                let known = |least: u32| Margin::Known(own.deadline as i32 - least as i32);
                assert_eq!(margin, solution.map_or(Margin::Beyond, known), "{task} of {tasks:?}");
                let above = above(&tasks, task);
                assert_eq!(run.is_waiting(task), load(&above) >= hyperperiod(&above), "{task} of {tasks:?}");
                met.note(&run, task, margin);
            }
        }
        println!("{met:?}");
        assert!(met.least() >= 5_000, "{met:?}");
    }

    #[test]
    fn words() {
        for (margin, word) in [
            (Margin::Known(-12), "-12"),
            (Margin::Known(0), "0"),
            (Margin::Known(7), "7"),
            (Margin::Beyond, "beyond"),
        ] {
            assert_eq!(margin.to_string(), word);
            assert_eq!(word.parse(), Ok(margin));
        }
        for word in ["", "-", "Beyond", "beyond ", "1.0", "2147483648"] {
            assert!(word.parse::<Margin>().is_err(), "{word}");
        }
    }
}
