//! Names as people give them.

use crate::model::Table;
use crate::random::Random;
use crate::text::Names;

/// Names of all lengths, with signs of each sort in them.
pub fn own_names(random: &mut Random, table: &Table) -> Names {
    let mut name = |first: &str, number: usize| {
        let middle: String =
            (0..random.below(12)).map(|_| random.pick(&['-', '_', '.', 'a', 'Z', '7', 'ü'])).collect();
        format!("{first}{middle}{number}")
    };
    Names {
        tasks: (0..table.tasks.len()).map(|number| name("task", number)).collect(),
        processors: (0..table.processors.len()).map(|number| name("on", number)).collect(),
    }
}
