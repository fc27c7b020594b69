//! Checks the placement tool against an independent implementation, written from the contract alone.
//!
//! - `reader`, `schedule`, `margin`, `conflict`, `judge`, `search`, `rounding`: the independent
//!   implementation;
//! - `generate`: random inputs; `examples`: inputs with answers worked out by hand;
//! - `comparison`: runs both on many inputs;
//! - `tool`: the tool's C functions; `program`: the program, as a process;
//! - `question`: a table for solvers of other makers;
//! - `text`, `listing`, `explain`: tables that people write, what the program prints, and that in words, for
//!   the binary `table`.
//!
//! `cargo test --lib` checks these against each other and needs nothing else. The tests in `tests/`
//! and the benchmark call the tool: RATTLE_STATICLIB names the folder of its `libplacement.a`.

pub mod columns;
pub mod comparison;
pub mod conflict;
pub mod examples;
pub mod explain;
pub mod file;
pub mod generate;
pub mod judge;
pub mod listing;
pub mod margin;
pub mod model;
pub mod program;
pub mod question;
pub mod random;
pub mod reader;
pub mod rounding;
pub mod schedule;
pub mod search;
pub mod text;
pub mod tool;
