//! The tables that a search fills. Every entry is true by itself, so that one is overwritten by the next, and an entry
//! of zeros says nothing. They are lent to the search: new memory from the system would cost a quick search half of
//! its time.

use crate::bound_cache::{self, Entry};
use crate::steps::Steps;

pub struct Learnt {
    /// Sets, each with one bit below that says whether it is late.
    pub known: Vec<u32>,
    /// Where the conflict stands that was found last in a set with the same place here.
    pub hints: Vec<u32>,
    /// For a full list: sets, each with one bit below that says whether it holds a listed conflict.
    pub covered: Vec<u32>,
    pub bound_cache: Vec<Entry>,
}

pub const HINT_BITS: u32 = 13;
pub const COVERED_BITS: u32 = 16;

impl Learnt {
    pub fn new(steps: Steps) -> Learnt {
        Learnt {
            known: vec![0; 1 << steps.known_bits()],
            hints: vec![0; 1 << HINT_BITS],
            covered: vec![0; 1 << COVERED_BITS],
            bound_cache: vec![Entry::default(); 1 << bound_cache::PLACE_BITS],
        }
    }

    pub fn forget(&mut self) {
        self.known.fill(0);
        self.hints.fill(0);
        self.covered.fill(0);
        self.bound_cache.fill(Entry::default());
    }
}
