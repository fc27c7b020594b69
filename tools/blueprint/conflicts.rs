//! Step B: all minimal late sets by one recursion over subsets. Where all that an earlier placement can hold are
//! listed, every earlier placement that keeps the rules holds one of them, and nothing need be replayed.

use crate::first::Answer;
use crate::search::Search;
use crate::table::{TASKS, members};

/// Whether the conflicts are to be listed at once, at the end.
#[derive(Clone, Copy, PartialEq)]
pub enum ListingAtOnce {
    Untried,
    Fits,
    TooMany,
}

/// A decision of so many nodes is worth the attempt: its replay would take as long.
const LONG_DECISION: u64 = 200;
/// The attempt ends after so many sets.
const MOST_SETS: u64 = 300_000;

/// Which minimal late sets are listed, and how many sets may still be looked at.
struct Recursion<'a> {
    sets_left: u64,
    /// The placement before which a set must be held; with none every set is.
    before: Option<&'a [u8; TASKS]>,
    /// So many conflicts were listed before and are not listed twice.
    listed: usize,
}

impl Search<'_> {
    /// After a long decision: whether the places suffice for all minimal late sets. The list stays as it is.
    pub fn try_listing_at_once(&mut self, is_cut: bool) {
        let is_asked = self.steps.listed_at_once && self.decision_nodes >= LONG_DECISION;
        if !is_asked || self.listing_at_once != ListingAtOnce::Untried {
            return;
        }
        let listed = self.nogoods.conflicts.len();
        let mut recursion = Recursion { sets_left: MOST_SETS, before: None, listed };
        let fits = !is_cut && self.list_supersets(&mut recursion, 0, 0);
        self.nogoods.conflicts.truncate(listed);
        self.listing_at_once = if fits { ListingAtOnce::Fits } else { ListingAtOnce::TooMany };
    }

    /// Lists all minimal late sets that a placement before the answer's can hold.
    pub fn list_at_once(&mut self, answer: &Answer) {
        let listed = self.nogoods.conflicts.len();
        let before = answer.found.then_some(&answer.placement);
        let mut recursion = Recursion { sets_left: u64::MAX, before, listed };
        let fits = self.list_supersets(&mut recursion, 0, 0);
        assert!(fits, "all minimal late sets had places");
    }

    /// Adds one task from this number on to a set that is not late. False if the sets or the places do not suffice.
    fn list_supersets(&mut self, recursion: &mut Recursion, set: u32, from: usize) -> bool {
        for task in from..self.table.tasks {
            if recursion.sets_left == 0 {
                return false;
            }
            recursion.sets_left -= 1;
            let next = set | 1 << task;
            let goes_on = if !self.can_stand(next) {
                true
            } else if self.is_late(next) {
                self.list_if_minimal(recursion, set, next)
            } else {
                self.list_supersets(recursion, next, task + 1)
            };
            if !goes_on {
                return false;
            }
        }
        true
    }

    /// False if there is no place for it.
    fn list_if_minimal(&mut self, recursion: &Recursion, rest: u32, late: u32) -> bool {
        let is_minimal = members(rest).all(|task| !self.is_late(late & !(1 << task)));
        let is_listed = |search: &Self| search.nogoods.conflicts[..recursion.listed].contains(&late);
        if !is_minimal || !self.is_held_before(late, recursion.before) || is_listed(self) {
            return true;
        }
        let has_place = !self.nogoods.is_full();
        if has_place {
            self.nogoods.conflicts.push(late);
        }
        has_place
    }

    /// The processors on which all tasks of a set may stand.
    fn common_residence(&self, set: u32) -> u32 {
        members(set).fold(self.table.all_processors(), |common, task| common & self.table.residence[task])
    }

    /// Whether the rules allow the set on some processor.
    fn can_stand(&self, set: u32) -> bool {
        if members(set).any(|task| self.table.excluded[task] & set != 0) {
            return false;
        }
        let memory = members(set).map(|task| self.table.memory[task]).sum::<u64>();
        let load = members(set).map(|task| self.table.load[task]).sum::<u64>();
        members(self.common_residence(set))
            .any(|p| memory <= self.table.memory_room[p] && load <= self.table.load_room[p])
    }

    /// Whether an earlier placement within the residences has the set on one processor. It has the tasks before
    /// some task k where the given one has them, and k on a lower processor.
    fn is_held_before(&self, set: u32, placement: Option<&[u8; TASKS]>) -> bool {
        let mut common = self.common_residence(set);
        let Some(placement) = placement else {
            return common != 0;
        };
        for task in 0..self.table.tasks {
            if common == 0 {
                return false;
            }
            let lower = self.table.residence[task] & ((1 << placement[task]) - 1);
            let is_member = set >> task & 1 == 1;
            if lower & if is_member { common } else { u32::MAX } != 0 {
                return true;
            }
            if is_member {
                common &= 1 << placement[task];
            }
        }
        false
    }
}
