//! Files of every sort that the program may be given, so that a search of each ends soon.

use super::around::breaking;
use super::crowded::{medium_table, small_table};
use super::faulty::refused_file;
use super::halves::halves;
use super::lamps::lamps;
use super::tables::{Shape, table};
use crate::file::{encode, records};
use crate::judge::{RULES, Rule};
use crate::model::Table;
use crate::random::Random;
use std::iter::repeat_n;

#[derive(Clone, Copy, Debug, PartialEq, Eq)]
pub enum Sort {
    /// A table whose placements can all be tried, and one for which they are too many.
    Small,
    Medium,
    /// A table around a placement that keeps the rules, or breaks some, with nothing to spare.
    Around,
    /// Numbers and counts at their limits.
    Limits,
    /// Loads half way between two thousandths, or nearly so.
    Halves,
    /// More conflicts than there are places, or nearly so.
    Lamps,
    /// Refused, for each cause equally often.
    Faulty,
    CutShort,
    /// One byte or one bit is another.
    Changed,
    /// Bytes behind a table, a few, or more than the program reads.
    Appended,
    Long,
    /// Any bytes, or none.
    Noise,
}

/// The sorts of a round: each as often as it is worth, as a search of lamps takes longest.
pub fn sorts() -> Vec<Sort> {
    let often = [
        (Sort::Small, 8),
        (Sort::Medium, 1),
        (Sort::Around, 4),
        (Sort::Limits, 2),
        (Sort::Halves, 4),
        (Sort::Lamps, 1),
        (Sort::Faulty, 8),
        (Sort::CutShort, 2),
        (Sort::Changed, 3),
        (Sort::Appended, 1),
        (Sort::Long, 1),
        (Sort::Noise, 1),
    ];
    often.into_iter().flat_map(|(sort, times)| repeat_n(sort, times)).collect()
}

impl Sort {
    pub fn file(self, random: &mut Random) -> Vec<u8> {
        match self {
            Sort::Small => encode(&small_table(random)),
            Sort::Medium => encode(&medium_table(random)),
            Sort::Around => encode(&around(random)),
            Sort::Limits => encode(&at_the_limits(random)),
            Sort::Halves => encode(&halves(random)),
            Sort::Lamps => encode(&lamps(random)),
            Sort::Faulty => refused_file(random).0,
            Sort::CutShort => cut_short(random),
            Sort::Changed => changed(random),
            Sort::Appended => appended(random, 40),
            Sort::Long => appended(random, 20_000),
            Sort::Noise => noise(random, 300),
        }
    }
}

/// Keeps all rules, or breaks one.
fn around(random: &mut Random) -> Table {
    let rules: Vec<Rule> = if random.once_in(2) { vec![random.pick(&RULES)] } else { Vec::new() };
    let (mut case, _) = breaking(random, &rules);
    narrow(random, &mut case.table, &case.placement);
    case.table
}

fn at_the_limits(random: &mut Random) -> Table {
    let shape = Shape::random(random);
    let mut table = table(random, shape);
    let placement: Vec<u8> = table.tasks.iter().map(|task| task.residence.trailing_zeros() as u8).collect();
    narrow(random, &mut table, &placement);
    table
}

/// Leaves each task the processor of this placement, and some ten of them another.
fn narrow(random: &mut Random, table: &mut Table, placement: &[u8]) {
    for (task, &own) in table.tasks.iter_mut().zip(placement) {
        let other = random.below(table.processors.len());
        let more = if random.below(placement.len()) < 10 { 1 << other } else { 0 };
        task.residence = 1 << own | more;
    }
}

/// Within a record or between two.
fn cut_short(random: &mut Random) -> Vec<u8> {
    let table = small_table(random);
    let mut file = encode(&table);
    let kept = random.below(records(&table).len());
    let between: usize = records(&table)[..kept].iter().map(Vec::len).sum();
    let within = random.below(file.len());
    file.truncate(random.pick(&[between, within]));
    file
}

fn changed(random: &mut Random) -> Vec<u8> {
    let mut file = encode(&small_table(random));
    let (place, bit, any) = (random.below(file.len()), 1 << random.below(8), random.within(1, 255) as u8);
    file[place] ^= random.pick(&[bit, any]);
    file
}

/// A table with noise behind it. As its length goes up to what a file may have, a reader with a shorter
/// buffer shows itself.
fn appended(random: &mut Random, most: usize) -> Vec<u8> {
    let full = random.once_in(2);
    let mut file = encode(&if full { table(random, Shape::FULL) } else { small_table(random) });
    file.extend((0..1 + random.below(most)).map(|_| random.draw() as u8));
    file
}

fn noise(random: &mut Random, most: usize) -> Vec<u8> {
    let length = if random.once_in(2) { 0 } else { random.below(most) };
    (0..length).map(|_| random.draw() as u8).collect()
}
