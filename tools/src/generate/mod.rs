//! Random inputs, the same for the same seed.

pub mod around;
pub mod crowded;
pub mod faulty;
pub mod files;
pub mod halves;
pub mod lamps;
pub mod loads;
pub mod masks;
pub mod names;
pub mod sets;
pub mod tables;
