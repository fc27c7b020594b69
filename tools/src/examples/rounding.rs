//! Listings worked out by hand whose loads lie half way between two thousandths: request 2026-02.

use super::{processor, task};
use crate::generate::sets::free_table;
use crate::model::{Table, Task};

pub struct Example {
    pub what: &'static str,
    pub table: Table,
    /// What the program prints, whole.
    pub listing: &'static str,
}

pub fn all() -> Vec<Example> {
    let alone = |limit| Table { processors: vec![processor(10, limit)], ..free_table(vec![sixteenth(1)], 1) };
    vec![
        Example { what: "the request's loads", table: five(), listing: FIVE },
        Example { what: "62.5 exceeds 62", table: alone(62), listing: "none\ncomplete\n" },
        Example { what: "62.5 does not exceed 63", table: alone(63), listing: ONE },
        Example { what: "62.5 goes where the limit is 63", table: limits_62_and_63(), listing: SECOND },
        Example {
            what: "62.5 twice",
            table: free_table(vec![sixteenth(2), sixteenth(1)], 1),
            listing: TWICE,
        },
    ]
}

/// A load of 62.5 thousandths.
fn sixteenth(priority: u16) -> Task {
    task(1, 16, 16, priority)
}

/// On the first processor the task would break rule 105.
fn limits_62_and_63() -> Table {
    let processors = vec![processor(10, 62), processor(10, 63)];
    Table { processors, ..free_table(vec![sixteenth(1)], 2) }
}

/// Each task alone on its processor, so that its response is its C, and its margin T − C as D is T. H is
/// 2000, which is 125 × 16. As each has one place to stand, no earlier placement keeps the rules.
fn five() -> Table {
    let times = [(1, 16), (3, 16), (1, 2000), (3, 2000), (1999, 2000)];
    let tasks = (1..).zip(times).map(|(priority, (takes, every))| task(takes, every, every, priority));
    let mut table = free_table(tasks.collect(), 5);
    let home = |(own, task): (usize, &mut Task)| task.residence = 1 << own;
    table.tasks.iter_mut().enumerate().for_each(home);
    table
}

/// 62.5 goes down to the even 62, 187.5 up to 188, 0.5 down to 0, 1.5 up to 2, 999.5 up to 1000.
const FIVE: &str = "\
found
task 0 on 0 response 1 deadline 16 margin 15
task 1 on 1 response 3 deadline 16 margin 13
task 2 on 2 response 1 deadline 2000 margin 1999
task 3 on 3 response 3 deadline 2000 margin 1997
task 4 on 4 response 1999 deadline 2000 margin 1
load 0 62
load 1 188
load 2 0
load 3 2
load 4 1000
complete
";

const ONE: &str = "\
found
task 0 on 0 response 1 deadline 16 margin 15
load 0 62
complete
";

const SECOND: &str = "\
found
task 0 on 1 response 1 deadline 16 margin 15
load 0 0
load 1 62
complete
";

/// The sum is rounded, which is 125, and not each task's load.
const TWICE: &str = "\
found
task 0 on 0 response 1 deadline 16 margin 15
task 1 on 0 response 2 deadline 16 margin 14
load 0 125
complete
";

#[cfg(test)]
mod tests {
    use super::*;
    use crate::comparison::searching::{Search, search_all, search_pruned};
    use crate::file::encode;
    use crate::listing::listing;

    #[test]
    fn the_independent_listings_agree_with_every_example() {
        for example in all() {
            let searches: [Search; 2] = [&search_all, &search_pruned];
            for search in searches {
                let printed = listing(&encode(&example.table), search).to_string();
                assert_eq!(printed, example.listing, "{}", example.what);
            }
        }
    }
}
