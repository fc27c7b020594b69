//! The conflict check: 0 no conflict, 1 late but not minimal, 2 minimal. And the count of late sets.

use crate::model::{Cause, Refusal};
use crate::reader::read;
use crate::schedule::{is_late, late, members};

/// What the tool's C function returns: a refusal's code, or the answer.
pub fn conflict_code(file: &[u8], mask: u32) -> u64 {
    match read(file) {
        Err(refusal) => refusal.code(),
        Ok(table) if mask >> table.tasks.len() != 0 || mask.count_ones() < 2 => {
            Refusal { cause: Cause::BadConflictMask, place: 0 }.code()
        }
        Ok(table) => answer(mask, &|set| late(&table.tasks, set)),
    }
}

/// The answer for a set, if this is what is late.
pub fn answer(set: u32, is_late: &dyn Fn(u32) -> bool) -> u64 {
    let minimal = || members(set).all(|task| !is_late(set & !(1 << task)));
    match is_late(set) {
        false => 0,
        true if minimal() => 2,
        true => 1,
    }
}

/// How many of the sets are late. A set with an unknown task is none of the table's, and a file that is refused
/// has none.
pub fn late_sets(file: &[u8], sets: &[u32]) -> u64 {
    let Ok(table) = read(file) else {
        return 0;
    };
    let own = sets.iter().filter(|&&set| set >> table.tasks.len() == 0);
    own.filter(|&&set| is_late(&table.tasks, set)).count() as u64
}

/// Leaves out each task in turn while the rest stays late; the set itself if it is not late.
pub fn minimal_part(set: u32, is_late: &dyn Fn(u32) -> bool) -> u32 {
    members(set).fold(set, |rest, task| {
        let without = rest & !(1 << task);
        if is_late(without) { without } else { rest }
    })
}
