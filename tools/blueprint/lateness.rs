//! Which sets of tasks are late: some task of the set has no response within its deadline.

use crate::table::{Table, members};

impl Table {
    pub fn is_late(&self, set: u32) -> bool {
        members(set).any(|task| self.is_late_in(set, task))
    }

    /// The least solution of the response equation, from below, as long as it keeps the deadline.
    fn is_late_in(&self, set: u32, task: usize) -> bool {
        let higher = set & self.higher[task];
        let mut response =
            self.execution[task] + members(higher).map(|other| self.execution[other]).sum::<u32>();
        loop {
            if response > self.deadline[task] {
                return true;
            }
            let work = |other: usize| response.div_ceil(self.period[other]) * self.execution[other];
            let next = self.execution[task] + members(higher).map(work).sum::<u32>();
            if next == response {
                return false;
            }
            response = next;
        }
    }

    /// A minimal late set within a late set.
    pub fn minimal_within(&self, late: u32) -> u32 {
        let without =
            |set: u32, task: usize| if self.is_late(set & !(1 << task)) { set & !(1 << task) } else { set };
        members(late).fold(late, without)
    }
}
