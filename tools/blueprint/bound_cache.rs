//! Best packings that are kept: neighbouring regions differ in one processor, so that most are asked for again.

use crate::knapsack::Best;
use crate::search::Search;

/// All that a best packing is worked out from, beside the table.
#[derive(Clone, Copy, Default, PartialEq)]
pub struct Key {
    on: u32,
    /// Never empty in a key that is asked for, so that an entry of zeros is none.
    candidates: u32,
    version: u32,
    /// The lowest equal processor.
    processor: u32,
}

pub type Entry = (Key, Best);

pub const PLACE_BITS: u32 = 13;

impl Key {
    fn place(&self) -> usize {
        let row = self.version.wrapping_mul(8).wrapping_add(self.processor);
        let mixed = u64::from(self.on).wrapping_mul(0x9E37_79B9_7F4A_7C15)
            ^ u64::from(self.candidates).wrapping_mul(0xC2B2_AE3D_27D4_EB4F)
            ^ u64::from(row).wrapping_mul(0x1656_67B1_9E37_79F9);
        ((mixed ^ mixed >> 29).wrapping_mul(0x9E37_79B9_7F4A_7C15) >> (64 - PLACE_BITS)) as usize
    }
}

impl Search<'_> {
    pub fn key(&self, on: u32, candidates: u32, version: u32, processor: usize) -> Key {
        Key { on, candidates, version, processor: self.guide.equal_processor[processor] as u32 }
    }

    /// While conflicts are listed nothing is recalled: what closes a set changes with the list, and the conflicts
    /// would still have to be listed.
    pub fn recalled(&self, key: &Key) -> Option<Best> {
        let (kept, best) = &self.learnt.bound_cache[key.place()];
        (!self.listing && kept == key).then_some(*best)
    }

    pub fn keep(&mut self, key: Key, best: Best) {
        if !self.listing {
            self.learnt.bound_cache[key.place()] = (key, best);
        }
    }
}
