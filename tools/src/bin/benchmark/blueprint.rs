//! The blueprint, the search in plain Rust without proofs: it is compiled for the run, and takes the steps that it is
//! told (`tools/blueprint/steps.rs`).

use crate::instances::Room;
use crate::process::{Outcome, by_program};
use std::path::{Path, PathBuf};
use std::process::Command;
use tools::program::root;

/// The steps that the tool is compared with, and those that it is to do without.
pub const USUAL: &str = "CEABG";
pub const FURTHER: &str = "DF";

pub struct Blueprint {
    program: PathBuf,
}

impl Blueprint {
    /// None if its source or the compiler is missing.
    pub fn compiled(room: &Room) -> Option<Blueprint> {
        let program = room.folder.join("blueprint");
        let source = root().join("tools/blueprint/placement_search.rs");
        let mut compiler = Command::new("rustc");
        let status = compiler.args(["-O", "--edition", "2024", "-o"]).arg(&program).arg(source).status();
        status.is_ok_and(|status| status.success()).then_some(Blueprint { program })
    }

    pub fn search(&self, table: &Path, steps: &str, limit: u64) -> Outcome {
        by_program(&[self.program.as_os_str(), table.as_os_str(), steps.as_ref()], limit)
    }
}
