//! Tables as text, one record to a line. tables/README.md describes the format.
//!
//! - `line`: the form of one line;
//! - `sheet`: the lines of a text as one table, with their names, and as a file;
//! - `write`: a table as text.

pub mod line;
pub mod sheet;
pub mod write;

use crate::model::Table;
use std::fmt;

/// The names of a table's tasks and processors, by their numbers.
#[derive(Clone, Debug, PartialEq, Eq)]
pub struct Names {
    pub tasks: Vec<String>,
    pub processors: Vec<String>,
}

impl Names {
    /// t0, t1, .. and p0, p1, ..: for a table file, which has no names.
    pub fn made_up(table: &Table) -> Names {
        Names {
            tasks: (0..table.tasks.len()).map(|number| format!("t{number}")).collect(),
            processors: (0..table.processors.len()).map(|number| format!("p{number}")).collect(),
        }
    }
}

/// What is wrong with a text, and in which line, counted from 1.
#[derive(Debug, PartialEq, Eq)]
pub struct Mistake {
    pub line: usize,
    pub what: String,
}

/// As compilers write it behind the file's name and a colon.
impl fmt::Display for Mistake {
    fn fmt(&self, out: &mut fmt::Formatter) -> fmt::Result {
        write!(out, "{}: {}", self.line, self.what)
    }
}

/// How many bytes decide what sort of file it is; the script `place` looks at as many.
const FIRST_BYTES: usize = 512;

/// Whether a file is text rather than a table file: it is not empty, and its first bytes have no control
/// characters but those between words and lines. A table file that is read has one at byte 13, in the limit of
/// the first processor: up to 1000, it ends in a byte of at most 3.
pub fn is_text(bytes: &[u8]) -> bool {
    let first = &bytes[..bytes.len().min(FIRST_BYTES)];
    !first.is_empty() && first.iter().all(|&byte| byte >= b' ' || b"\t\n\r".contains(&byte))
}

/// The text in these bytes, or the first line that is none. Some editors put a mark before UTF-8.
pub fn of_bytes(bytes: &[u8]) -> Result<&str, Mistake> {
    let bytes = bytes.strip_prefix(b"\xEF\xBB\xBF").unwrap_or(bytes);
    str::from_utf8(bytes).map_err(|error| {
        let before = &bytes[..error.valid_up_to()];
        let line = 1 + before.iter().filter(|&&byte| byte == b'\n').count();
        Mistake { line, what: "expected text in UTF-8, found other bytes".to_string() }
    })
}
