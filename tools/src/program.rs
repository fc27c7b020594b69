//! The program `place` as others meet it: a process with standard input, standard output and an exit status.

use std::io::{ErrorKind, Write};
use std::path::{Path, PathBuf};
use std::process::{ChildStdin, Command, Stdio};
use std::time::Duration;
use std::{env, fs, thread};

/// What a process left when it ended.
#[derive(Clone, Debug, PartialEq, Eq)]
pub struct Ran {
    /// None if a signal ended it.
    pub status: Option<i32>,
    /// On standard output.
    pub printed: Vec<u8>,
    /// On standard error.
    pub said: Vec<u8>,
}

/// The repository's root.
pub fn root() -> &'static Path {
    Path::new(env!("CARGO_MANIFEST_DIR")).parent().expect("tools/ lies in the repository")
}

/// The folder of the program: RATTLE_BIN names it, else it is the one in which it is built.
pub fn folder() -> PathBuf {
    let folder = env::var_os("RATTLE_BIN").map_or_else(|| root().join("crates/place/out"), PathBuf::from);
    let program = folder.join("place");
    assert!(program.is_file(), "{} is missing: `rt run` in crates/place builds it", program.display());
    folder
}

/// Runs the program on these pieces of standard input.
pub fn place(pieces: &[&[u8]]) -> Ran {
    run(&mut Command::new(folder().join("place")), pieces)
}

/// Runs a command. Each piece of its input is written when the ones before it have been read.
pub fn run(command: &mut Command, pieces: &[&[u8]]) -> Ran {
    let mut child = command
        .stdin(Stdio::piped())
        .stdout(Stdio::piped())
        .stderr(Stdio::piped())
        .spawn()
        .unwrap_or_else(|error| panic!("{command:?}: {error}"));
    let (process, input) = (child.id(), child.stdin.take().expect("its input"));
    let output = thread::scope(|scope| {
        scope.spawn(|| feed(process, input, pieces));
        child.wait_with_output().expect("what it leaves")
    });
    Ran { status: output.status.code(), printed: output.stdout, said: output.stderr }
}

/// A process that has read enough may end before the last piece.
fn feed(process: u32, mut input: ChildStdin, pieces: &[&[u8]]) {
    for (number, piece) in pieces.iter().enumerate() {
        if number > 0 {
            wait_for_reader(process);
        }
        match input.write_all(piece).and_then(|()| input.flush()) {
            Err(error) if error.kind() == ErrorKind::BrokenPipe => return,
            written => written.expect("a pipe that takes the piece"),
        }
    }
}

/// Waits while the process runs: it sleeps when it wants more than was written. Not for ever, as whoever else
/// waits would never hear of it.
fn wait_for_reader(process: u32) {
    for _ in 0..10_000 {
        let stat = fs::read_to_string(format!("/proc/{process}/stat")).unwrap_or_default();
        // The state stands behind the name, which is in parentheses.
        let state = stat.rsplit(')').next().unwrap_or_default().trim_start();
        if !state.starts_with(['R', 'D']) {
            return;
        }
        thread::sleep(Duration::from_micros(20));
    }
}

/// The bytes in pieces of these lengths, taken in turn; an empty input is one empty piece.
pub fn pieces<'a>(bytes: &'a [u8], lengths: &[usize]) -> Vec<&'a [u8]> {
    let (mut pieces, mut rest) = (Vec::new(), bytes);
    for &length in lengths.iter().cycle() {
        let (piece, behind) = rest.split_at(length.min(rest.len()));
        pieces.push(piece);
        rest = behind;
        if rest.is_empty() {
            break;
        }
    }
    pieces
}

#[cfg(test)]
mod tests {
    use super::*;

    /// dd counts the reads that gave less than it asked for.
    #[test]
    fn each_piece_is_read_by_itself() {
        let input = [7; 10];
        for (lengths, reads) in [(vec![10], 1), (vec![4], 3), (vec![1], 10), (vec![2, 3], 4)] {
            let mut dd = Command::new("dd");
            let ran = run(dd.arg("bs=100").env("LC_ALL", "C"), &pieces(&input, &lengths));
            assert_eq!((ran.status, ran.printed.as_slice()), (Some(0), input.as_slice()));
            let said = String::from_utf8_lossy(&ran.said).to_string();
            assert!(said.starts_with(&format!("0+{reads} records in\n")), "{lengths:?}: {said}");
        }
        assert_eq!(pieces(b"", &[3]), [b""]);
    }

    #[test]
    fn a_process_that_reads_nothing_is_no_trouble() {
        let long = vec![0; 1_000_000];
        let ran = run(Command::new("sh").args(["-c", "echo gone >&2; exit 3"]), &pieces(&long, &[400_000]));
        assert_eq!(ran, Ran { status: Some(3), printed: Vec::new(), said: b"gone\n".to_vec() });
    }
}
