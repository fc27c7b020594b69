//! The tables that are searched, as files: those of this package, which are hard, and repeatable loads.

use std::fs;
use std::path::{Path, PathBuf};
use tools::file::encode;
use tools::generate::loads::loads;
use tools::program::root;

pub const SEEDS: std::ops::RangeInclusive<u32> = 1..=20;

/// A folder for files of one run, removed at its end.
pub struct Room {
    pub folder: PathBuf,
}

impl Room {
    pub fn new() -> Room {
        let folder = std::env::temp_dir().join(format!("placement-benchmark-{}", std::process::id()));
        fs::create_dir(&folder).expect("a new folder");
        Room { folder }
    }
}

impl Drop for Room {
    fn drop(&mut self) {
        fs::remove_dir_all(&self.folder).expect("the folder to be removed");
    }
}

pub fn public() -> Vec<PathBuf> {
    let entries = fs::read_dir(root().join("tools/tables")).expect("a folder of tables");
    let mut files: Vec<PathBuf> = entries.map(|entry| entry.expect("a table").path()).collect();
    files.retain(|path| path.extension().is_some_and(|ending| ending == "tbl"));
    files.sort();
    files
}

/// One table for each seed.
pub fn generated(room: &Room, tasks: usize, processors: usize) -> Vec<PathBuf> {
    let write = |seed| {
        let path = room.folder.join(format!("loads-{tasks}-{processors}-{seed}.tbl"));
        fs::write(&path, encode(&loads(seed, tasks, processors))).expect("a file to be written");
        path
    };
    SEEDS.map(write).collect()
}

pub fn name(path: &Path) -> String {
    path.file_stem().unwrap_or_default().display().to_string()
}
