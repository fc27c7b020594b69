//! What 01 "The search answer" fixes for one table, twice over, and an answer of our own.
//!
//! - `enumerated`: by trying all placements, for small tables;
//! - `pruned`: by a search that leaves out what cannot be completed, for larger ones;
//! - `checker`: a check of any answer by one of the two.

pub mod checker;
pub mod enumerated;
pub mod pruned;

use crate::conflict::minimal_part;
use crate::model::Table;

/// The bytes of an answer beside its conflicts: the head's mark, the tasks, the end's mark and byte.
pub fn shortest_answer(table: &Table) -> usize {
    table.tasks.len() + 5
}

/// How many conflicts a buffer has places for.
pub fn places(table: &Table, buffer: usize) -> usize {
    (buffer - shortest_answer(table)) / 6
}

/// Whether all tasks of the conflict stand on one processor. The sets are those of the processors.
fn holds(sets: &[u32], conflict: u32) -> bool {
    sets.iter().any(|set| conflict & !set == 0)
}

/// What decides whether a search answer is right. "Earlier" means before the first placement; where
/// there is none, every placement is earlier.
pub trait Truth {
    fn table(&self) -> &Table;

    /// Whether a set of the table's tasks is late.
    fn is_late(&self, set: u32) -> bool;

    /// The first placement that keeps the rules and has no late job.
    fn first(&self) -> Option<&[u8]>;

    /// Whether an earlier placement that keeps residence holds this conflict.
    fn is_held(&self, conflict: u32) -> bool;

    /// Some earlier placement that keeps the rules and holds none of these conflicts: the tasks on
    /// each processor.
    fn uncovered(&self, conflicts: &[u32]) -> Option<Vec<u32>>;
}

/// The head for this placement, or for none.
pub fn head(table: &Table, first: Option<&[u8]>) -> Vec<u8> {
    let nowhere = vec![255; table.tasks.len()];
    match first {
        Some(placement) => [b"AL", placement].concat(),
        None => [b"NO", nowhere.as_slice()].concat(),
    }
}

/// An answer of our own: as long as there is a place, a conflict for some earlier placement that
/// holds none yet. The buffer is long enough.
pub fn answer(truth: &dyn Truth, buffer: &mut [u8]) -> usize {
    let table = truth.table();
    let mut conflicts: Vec<u32> = Vec::new();
    let mut open = truth.uncovered(&conflicts);
    while let Some(sets) = &open
        && conflicts.len() < places(table, buffer.len())
    {
        conflicts.push(some_conflict(truth, sets));
        open = truth.uncovered(&conflicts);
    }
    let answer = with_list(head(table, truth.first()), &conflicts, open.is_none());
    buffer[..answer.len()].copy_from_slice(&answer);
    answer.len()
}

/// The answer that has this head, these conflicts and this mark.
pub fn with_list(head: Vec<u8>, conflicts: &[u32], complete: bool) -> Vec<u8> {
    let records = conflicts.iter().map(|conflict| [b"NG", conflict.to_le_bytes().as_slice()].concat());
    let end = [b'E', b'N', u8::from(complete)];
    [head, records.collect::<Vec<_>>().concat(), end.to_vec()].concat()
}

/// A minimal part of the first late set.
fn some_conflict(truth: &dyn Truth, sets: &[u32]) -> u32 {
    let late_set = sets.iter().copied().find(|&set| truth.is_late(set));
    let late_set = late_set.expect("an earlier placement that keeps the rules has a late job");
    minimal_part(late_set, &|part| truth.is_late(part))
}
