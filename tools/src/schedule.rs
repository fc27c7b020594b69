//! Response and lateness twice over: by the tick run, and by the response equation.

use crate::model::{Task, hyperperiod};

/// One job of the tick run.
struct Job {
    task: usize,
    released: u32,
    had: u32,
}

/// A set of tasks that run alone on one processor, as far as they have come: 01 "Response and run", tick by
/// tick and job by job.
pub struct Run<'a> {
    pub tasks: &'a [Task],
    set: u32,
    /// The next tick.
    tick: u32,
    unfinished: Vec<Job>,
    pub late: bool,
    /// When each task's first job was finished; 0 if it was not, or if the task is not in the set.
    pub first_finish: Vec<u32>,
}

/// A way to tell whether a set of these tasks is late when it runs alone on one processor.
pub type Lateness = fn(&[Task], u32) -> bool;

/// The members of a set of tasks, lowest first.
pub fn members(mut set: u32) -> impl Iterator<Item = usize> {
    std::iter::from_fn(move || {
        let lowest = set.trailing_zeros() as usize;
        set &= set.wrapping_sub(1);
        (lowest < 32).then_some(lowest)
    })
}

/// The set of all these tasks.
pub fn all(tasks: &[Task]) -> u32 {
    (1 << tasks.len()) - 1
}

impl Run<'_> {
    fn start(tasks: &[Task], set: u32) -> Run<'_> {
        Run { tasks, set, tick: 0, unfinished: Vec::new(), late: false, first_finish: vec![0; tasks.len()] }
    }

    fn step(&mut self) {
        let (tasks, tick) = (self.tasks, self.tick);
        let released = members(self.set).filter(|&task| tick.is_multiple_of(tasks[task].period));
        self.unfinished.extend(released.map(|task| Job { task, released: tick, had: 0 }));
        let first = |job: &&mut Job| (tasks[job.task].priority, std::cmp::Reverse(job.released));
        if let Some(job) = self.unfinished.iter_mut().max_by_key(first) {
            job.had += 1;
            if job.had == tasks[job.task].execution && job.released == 0 {
                self.first_finish[job.task] = tick + 1;
            }
        }
        self.unfinished.retain(|job| job.had < tasks[job.task].execution);
        self.late |= self.unfinished.iter().any(|job| tick == job.released + tasks[job.task].deadline - 1);
        self.tick += 1;
    }

    /// So many ticks more, or up to the first late job.
    fn go_on(&mut self, ticks: u32) {
        let end = self.tick + ticks;
        while self.tick < end && !self.late {
            self.step();
        }
    }

    /// Whether a task's first job has had no tick so far. If it had none in a hyperperiod, the tasks of
    /// higher priority take every tick there is, and it never gets one.
    pub fn is_waiting(&self, task: usize) -> bool {
        self.unfinished.iter().any(|job| (job.task, job.released, job.had) == (task, 0, 0))
    }

    /// What the ticks to come depend on, once all tasks release together: the unfinished jobs in the order of
    /// their releases, each with its task, its age and the ticks that it had.
    fn backlog(&self) -> Vec<(usize, u32, u32)> {
        self.unfinished.iter().map(|job| (job.task, self.tick - job.released, job.had)).collect()
    }
}

/// So many ticks of the run.
pub fn run(tasks: &[Task], set: u32, ticks: u32) -> Run<'_> {
    let mut run = Run::start(tasks, set);
    (0..ticks).for_each(|_| run.step());
    run
}

/// Whether a set is late, by its tick run alone. The run has no end, but it is decided as soon as a job is
/// late, or a hyperperiod of the set leaves the backlog that it found: all tasks release together then as they
/// did before, so that what follows repeats what was seen, for ever.
///
/// One hyperperiod is enough. Its length is a multiple of each period T, so that a job released in it at r has
/// r + D ≤ r + T ≤ its end. If none is late, each is finished at its end, and the backlog is empty as at tick 0.
/// If the load is above 1, its work is more than its ticks: some job is unfinished at its end, and late.
pub fn runs_late(tasks: &[Task], set: u32) -> bool {
    let hyperperiod = hyperperiod_of(tasks, set);
    let mut run = Run::start(tasks, set);
    loop {
        let found = run.backlog();
        run.go_on(hyperperiod);
        if run.late || run.backlog() == found {
            return run.late;
        }
    }
}

fn hyperperiod_of(tasks: &[Task], set: u32) -> u32 {
    hyperperiod(&members(set).map(|task| tasks[task]).collect::<Vec<_>>())
}

/// The hyperperiod up to which `is_late` goes by the tick run.
const LONGEST_RUN: u32 = 10_000;

/// Whether a set is late: by the tick run, or by the response equation where the run is long.
pub fn is_late(tasks: &[Task], set: u32) -> bool {
    match hyperperiod_of(tasks, set) {
        0..=LONGEST_RUN => runs_late(tasks, set),
        _ => late(tasks, set),
    }
}

/// Whether a set is late when run alone on one processor, by the response equation.
pub fn late(tasks: &[Task], set: u32) -> bool {
    members(set).any(|task| response(tasks, set, task) == 0)
}

/// The least solution of the response equation among the tasks of `set`; 0 if it is above the
/// deadline or there is none.
pub fn response(tasks: &[Task], set: u32, task: usize) -> u32 {
    let own = &tasks[task];
    let higher = higher(tasks, set, own);
    let mut response = own.execution;
    loop {
        let demand = demand(tasks, higher, own, response);
        if demand > u64::from(own.deadline) {
            return 0;
        }
        if demand == u64::from(response) {
            return response;
        }
        response = demand as u32;
    }
}

/// The tasks of `set` that go before `own`.
fn higher(tasks: &[Task], set: u32, own: &Task) -> u32 {
    members(set)
        .filter(|&other| tasks[other].priority > own.priority)
        .fold(0, |mask, other| mask | 1 << other)
}

/// The right side of the equation: what must be done before the task's job is finished at `time`.
fn demand(tasks: &[Task], higher: u32, own: &Task, time: u32) -> u64 {
    let interference = |other: &Task| u64::from(time.div_ceil(other.period)) * u64::from(other.execution);
    u64::from(own.execution) + members(higher).map(|other| interference(&tasks[other])).sum::<u64>()
}

/// The first number up to the last one that solves the equation, by trying each.
#[cfg(test)]
pub fn first_solution(tasks: &[Task], set: u32, task: usize, last: u32) -> Option<u32> {
    let higher = higher(tasks, set, &tasks[task]);
    (1..=last).find(|&time| demand(tasks, higher, &tasks[task], time) == u64::from(time))
}

#[cfg(test)]
mod tests {
    use super::*;
    use crate::examples::task;
    use crate::generate::sets::{load, random_set};
    use crate::random::Random;

    /// What must have occurred among the random sets for the comparison to mean anything.
    #[derive(Default, Debug)]
    struct Seen {
        late: usize,
        in_time: usize,
        full: usize,
        just_overfull: usize,
        response_at_deadline: usize,
        missed_by_one: usize,
        release_at_response: usize,
        deadline_is_execution: usize,
        equal_periods: usize,
    }

    impl Seen {
        fn note(&mut self, tasks: &[Task], late: bool) {
            let (work, hyperperiod) = (load(tasks), hyperperiod(tasks));
            self.late += usize::from(late);
            self.in_time += usize::from(!late);
            self.full += usize::from(work == hyperperiod);
            self.just_overfull += usize::from(work == hyperperiod + 1);
            let pairs = || tasks.iter().enumerate().flat_map(|(k, a)| tasks[..k].iter().map(move |b| (a, b)));
            self.equal_periods += usize::from(pairs().any(|(a, b)| a.period == b.period));
        }

        fn note_task(&mut self, tasks: &[Task], task: usize, run: &Run) {
            let own = &tasks[task];
            let finish = run.first_finish[task];
            let released =
                |other: &Task| other.priority > own.priority && finish.is_multiple_of(other.period);
            self.response_at_deadline += usize::from(finish == own.deadline);
            self.missed_by_one += usize::from(finish == own.deadline + 1);
            self.release_at_response += usize::from(finish > 0 && tasks.iter().any(released));
            self.deadline_is_execution += usize::from(own.deadline == own.execution);
        }

        fn least(&self) -> usize {
            let counts = [self.late, self.in_time, self.full, self.just_overfull, self.equal_periods];
            let more = [self.response_at_deadline, self.missed_by_one, self.release_at_response];
            counts.into_iter().chain(more).chain([self.deadline_is_execution]).min().unwrap_or(0)
        }
    }

    #[test]
    fn the_tick_run_and_the_equation_agree() {
        let mut random = Random::new(6);
        let mut seen = Seen::default();
        for _ in 0..200_000 {
            let tasks = random_set(&mut random);
            let run = run(&tasks, all(&tasks), 2 * hyperperiod(&tasks));
            assert_eq!(run.late, runs_late(&tasks, all(&tasks)), "{tasks:?}");
            assert_eq!(run.late, late(&tasks, all(&tasks)), "{tasks:?}");
            seen.note(&tasks, run.late);
            for task in 0..tasks.len() {
                let finish = run.first_finish[task];
                let in_time = if finish <= tasks[task].deadline { finish } else { 0 };
                assert_eq!(response(&tasks, all(&tasks), task), in_time, "{task} of {tasks:?}");
                let solution = first_solution(&tasks, all(&tasks), task, tasks[task].deadline);
                assert_eq!(solution.unwrap_or(0), in_time, "{task} of {tasks:?}");
                seen.note_task(&tasks, task, &run);
            }
        }
        assert!(seen.least() > 5_000, "{seen:?}");
    }

    /// A part of a set runs as if the others did not exist.
    #[test]
    fn a_part_runs_alone() {
        let tasks = [task(1, 4, 4, 30), task(2, 6, 6, 20), task(3, 12, 9, 10)];
        for (set, is_late) in [(0b111, true), (0b011, false), (0b101, false), (0b110, false)] {
            assert_eq!(run(&tasks, set, 24).late, is_late);
            assert_eq!(late(&tasks, set), is_late);
        }
    }

    /// 01's table of cases.
    #[test]
    fn cases_of_the_contract() {
        let responses = |tasks: &[Task]| -> Vec<u32> {
            let run = run(tasks, all(tasks), 2 * hyperperiod(tasks));
            let found = (0..tasks.len()).map(|task| response(tasks, all(tasks), task)).collect();
            assert_eq!(run.late, late(tasks, all(tasks)));
            found
        };
        assert_eq!(responses(&[task(1, 4, 4, 3), task(2, 6, 6, 2), task(3, 12, 10, 1)]), [1, 3, 10]);
        assert_eq!(responses(&[task(1, 4, 4, 3), task(2, 6, 6, 2), task(3, 12, 9, 1)]), [1, 3, 0]);
        assert_eq!(responses(&[task(2, 4, 4, 2), task(2, 4, 4, 1)]), [2, 4]);
        assert_eq!(responses(&[task(2, 4, 4, 2), task(3, 6, 6, 1)]), [2, 0]);
        assert_eq!(responses(&[task(2, 4, 4, 1), task(3, 6, 6, 2)]), [0, 3]);
    }

    /// The upper task leaves one tick in a thousand, and the lower one needs 999 of these: the
    /// equation takes 999 rounds to 999 + 999 × 999 = 999,000.
    #[test]
    fn a_thousand_rounds() {
        for (deadline, expected) in [(1_000_000, 999_000), (999_000, 999_000), (998_999, 0)] {
            let tasks = [task(999, 1000, 1000, 2), task(999, 1_000_000, deadline, 1)];
            assert_eq!(response(&tasks, 3, 1), expected);
            assert_eq!(run(&tasks, 3, 1_000_000).late, expected == 0);
        }
    }

    /// Two tasks of C 1 and T 2 leave nothing: each round of the equation adds 2, up to the deadline.
    #[test]
    fn no_solution() {
        let tasks = [task(1, 2, 2, 3), task(1, 2, 2, 2), task(1, 2000, 2000, 1)];
        assert_eq!(response(&tasks, 7, 2), 0);
        assert_eq!(run(&tasks, 7, 4000).first_finish, [1, 2, 0]);
    }
}
