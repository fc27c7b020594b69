//! The truth by trying all placements in their order.

use super::{Truth, holds};
use crate::judge::{Placed, Rule};
use crate::model::Table;
use crate::schedule::Lateness;
use std::collections::HashMap;

/// A placement before the first that keeps residence.
struct Earlier {
    /// The tasks on each processor.
    sets: Vec<u32>,
    keeps_rules: bool,
}

pub struct Enumerated<'a> {
    table: &'a Table,
    lateness: Lateness,
    first: Option<Vec<u8>>,
    earlier: Vec<Earlier>,
}

impl Enumerated<'_> {
    /// Whether there are no more than a thousand placements.
    pub fn is_quick(table: &Table) -> bool {
        let placements = table.processors.len().checked_pow(table.tasks.len() as u32);
        placements.is_some_and(|count| count <= 1_000)
    }

    /// Runs through up to m^n placements, so it is for small tables alone. All that it says of late sets is
    /// what `lateness` says: with the tick run's, no step rests on the response equation.
    pub fn of(table: &Table, lateness: Lateness) -> Enumerated<'_> {
        let mut truth = Enumerated { table, lateness, first: None, earlier: Vec::new() };
        let mut known = HashMap::new();
        let mut is_late = |&set: &u32| *known.entry(set).or_insert_with(|| lateness(&table.tasks, set));
        let mut placement = Some(vec![0; table.tasks.len()]);
        while let Some(current) = placement {
            let placed = Placed { table, placement: &current };
            let sets: Vec<u32> = (0..table.processors.len()).map(|processor| placed.on(processor)).collect();
            let keeps_rules = placed.keeps_rules();
            if keeps_rules && !sets.iter().any(&mut is_late) {
                truth.first = Some(current);
                break;
            }
            if placed.keeps(Rule::Residence) {
                truth.earlier.push(Earlier { sets, keeps_rules });
            }
            placement = next_placement(current, table.processors.len());
        }
        truth
    }
}

impl Truth for Enumerated<'_> {
    fn table(&self) -> &Table {
        self.table
    }

    fn is_late(&self, set: u32) -> bool {
        (self.lateness)(&self.table.tasks, set)
    }

    fn first(&self) -> Option<&[u8]> {
        self.first.as_deref()
    }

    fn is_held(&self, conflict: u32) -> bool {
        self.earlier.iter().any(|earlier| holds(&earlier.sets, conflict))
    }

    fn uncovered(&self, conflicts: &[u32]) -> Option<Vec<u32>> {
        let holds_none = |sets: &[u32]| !conflicts.iter().any(|&conflict| holds(sets, conflict));
        let open = self.earlier.iter().find(|earlier| earlier.keeps_rules && holds_none(&earlier.sets));
        open.map(|earlier| earlier.sets.clone())
    }
}

/// The next placement in the order in which task 0 weighs most.
pub fn next_placement(mut placement: Vec<u8>, processors: usize) -> Option<Vec<u8>> {
    let task = placement.iter().rposition(|&processor| usize::from(processor) + 1 < processors)?;
    placement[task] += 1;
    placement[task + 1..].fill(0);
    Some(placement)
}
