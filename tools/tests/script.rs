//! The script `place` at the repository's root: listings of the stored tables, tables for people, bad input,
//! and what it builds.

use std::fs;
use std::os::unix::fs::{PermissionsExt, symlink};
use std::path::{Path, PathBuf};
use std::process::Command;
use tools::comparison::explained;
use tools::comparison::listings::agrees;
use tools::comparison::printing::check;
use tools::program::{Ran, folder, root, run};
use tools::text::sheet::encode;
use tools::text::{Names, is_text};

/// The script with the program and the binary `table` that are there already.
fn script() -> Command {
    let mut command = Command::new(root().join("place"));
    let tools = Path::new(env!("CARGO_BIN_EXE_table")).parent().expect("its folder");
    command.env("RATTLE_BIN", folder()).env("RATTLE_TOOLS", tools);
    command
}

fn place(arguments: &[&str], input: &[u8]) -> Ran {
    run(script().current_dir(root()).args(arguments), &[input])
}

fn printed(ran: Ran) -> String {
    assert_eq!((ran.status, String::from_utf8_lossy(&ran.said).as_ref()), (Some(0), ""));
    String::from_utf8(ran.printed).expect("UTF-8")
}

/// Nothing printed, one line said.
fn refuses(what: &str, ran: Ran, status: i32, line: &str) {
    assert_eq!(String::from_utf8_lossy(&ran.said), format!("{line}\n"), "{what}");
    assert_eq!((ran.status, ran.printed), (Some(status), Vec::new()), "{what}");
}

/// A new, empty folder for a test.
fn room(name: &str) -> PathBuf {
    let room = Path::new(env!("CARGO_TARGET_TMPDIR")).join(name);
    let _ = fs::remove_dir_all(&room);
    fs::create_dir_all(&room).expect("a folder");
    room
}

fn write(path: PathBuf, content: &[u8]) -> String {
    fs::write(&path, content).expect("a file");
    path.to_str().expect("UTF-8").to_string()
}

/// The tables with their stored listings.
fn tables() -> Vec<(String, String)> {
    let entries = fs::read_dir(root().join("tables")).expect("the tables");
    let paths = entries.map(|entry| entry.expect("a file").path());
    let tables =
        paths.filter(|path| path.extension().is_some_and(|ending| ending == "txt" || ending == "tbl"));
    let tables: Vec<(String, String)> = tables
        .map(|path| {
            let listing = fs::read_to_string(path.with_extension("listing")).expect("a listing");
            (path.to_str().expect("UTF-8").to_string(), listing)
        })
        .collect();
    assert!(tables.len() >= 6, "{tables:?}");
    tables
}

/// The table file in or behind a table of the repository, and its names.
fn file_and_names(content: &[u8]) -> (Vec<u8>, Option<Names>) {
    if !is_text(content) {
        return (content.to_vec(), None);
    }
    let (file, names) = encode(str::from_utf8(content).expect("text")).expect("a sound text");
    (file, Some(names))
}

/// What is stored agrees, and what is free is right; the same by standard input.
#[test]
fn the_stored_listings() {
    for (path, stored) in tables() {
        let content = fs::read(&path).expect("a table");
        let ran = place(&[&path], b"");
        check(&file_and_names(&content).0, &ran).unwrap_or_else(|wrong| panic!("{path}: {wrong:?}"));
        let listing = printed(ran);
        assert!(agrees(&stored, &listing), "{path}: {listing}");
        assert_eq!(printed(place(&[], &content)), listing, "{path}");
        assert_eq!(printed(place(&["--", "-"], &content)), listing, "{path}");
    }
}

/// The loads of tables/bridge.listing, with the limits of its text. 405 of 1000 are more than 16 of 40 signs.
const BRIDGE: &str = "
processor   load  limit
span-card   1000   1000  |########################################|
gate-card    750    900  |##############################          |
house-card   405    900  |#################                       |
";

/// The same facts in words: those of the listing, with the names and limits of the table.
#[test]
fn tables_for_people() {
    for (path, _) in tables() {
        let content = fs::read(&path).expect("a table");
        let listing = printed(place(&[&path], b""));
        let (file, names) = file_and_names(&content);
        let explained = printed(place(&["--names", &path], b""));
        assert_eq!(
            explained::check(&file, names.as_ref(), &listing, &explained),
            Ok(()),
            "{path}: {explained}"
        );
        assert_eq!(printed(place(&["--names"], &content)), explained, "{path}");
    }
    let lamps = printed(place(&["tables/lamps.txt", "--names"], b""));
    let sentence = "No placement exists; each of the 2727 sets listed cannot share a processor, but the list is \
                    cut: some placement keeps the rules and has no set listed on one processor; it is late by \
                    another.\n\ncannot share a processor:\n  lamp-";
    assert!(lamps.starts_with(sentence), "{lamps}");
    let bridge = printed(place(&["tables/bridge.txt", "--names"], b""));
    assert!(bridge.contains(BRIDGE), "{bridge}");
}

#[test]
fn bad_input() {
    let room = room("bad-input");
    let in_room = |name: &str| room.join(name);
    let empty = write(in_room("empty"), b"");
    assert_eq!(printed(place(&[&empty], b"")), "refused 11 0\n");
    assert_eq!(printed(place(&[], b"")), "refused 11 0\n");
    let noise: Vec<u8> =
        (0..1_000_000u32).map(|number| (number.wrapping_mul(0x9E37_79B1) >> 24) as u8).collect();
    assert_eq!(printed(place(&[&write(in_room("noise"), &noise)], b"")), "refused 2 0\n");
    assert_eq!(printed(place(&[], &noise)), "refused 2 0\n");
    let folder = room.to_str().expect("UTF-8");
    refuses("a folder", place(&[folder], b""), 1, &format!("place: {folder}: this is a folder"));
    let missing = in_room("missing").display().to_string();
    refuses("no file", place(&[&missing], b""), 1, &format!("place: {missing}: there is no such file"));
    let mut from_folder = Command::new("sh");
    from_folder.args(["-c", "\"$0\" < /", root().join("place").to_str().expect("UTF-8")]);
    let line = "place: standard input: this cannot be read";
    refuses("a folder on standard input", run(&mut from_folder, &[b""]), 1, line);
    refuses("an empty name", place(&[""], b""), 1, "place: : there is no such file");
}

#[test]
fn a_mistake_in_line_7() {
    let example = fs::read_to_string(root().join("tables/example.txt")).expect("a text");
    let lines: Vec<&str> = example.lines().collect();
    assert_eq!(lines[6], "processor drive-b  memory 100  limit 1000");
    let text = example.replace("drive-b  memory 100  limit", "drive-b  memory 100  limits");
    let path = write(room("line-7").join("a table.txt"), text.as_bytes());
    let what = "expected \"limit\", found \"limits\"";
    for arguments in [vec![path.as_str()], vec!["--names", path.as_str()]] {
        refuses("line 7", place(&arguments, b""), 1, &format!("{path}:7: {what}"));
    }
    refuses("line 7", place(&[], text.as_bytes()), 1, &format!("standard input:7: {what}"));
}

#[test]
fn texts_of_every_length() {
    let example = fs::read(root().join("tables/example.txt")).expect("a text");
    let listing = printed(place(&[], &example));
    let longest = 1 << 20;
    let with_comment =
        |length: usize| [example.as_slice(), b"#", &vec![b'x'; length - example.len() - 1]].concat();
    assert_eq!(printed(place(&[], &with_comment(longest))), listing);
    let long = "place: standard input: a text has at most 1048576 bytes";
    refuses("too long", place(&[], &with_comment(longest + 1)), 1, long);
    refuses("much too long", place(&[], &with_comment(3 * longest)), 1, long);
}

#[test]
fn bad_usage() {
    let usage = "usage: place [--names] [FILE]";
    for option in ["--name", "-n", "--names=1"] {
        let line = format!("place: no such option: {option}; {usage}");
        refuses(option, place(&[option, "tables/example.txt"], b""), 2, &line);
    }
    let two = place(&["tables/example.txt", "tables/lamps.txt"], b"");
    refuses("two files", two, 2, &format!("place: more than one file; {usage}"));
}

/// From any folder, by a link, with names that a shell could take for something else.
#[test]
fn folders_and_names() {
    let room = room("folders and names");
    let example = fs::read(root().join("tables/example.txt")).expect("a text");
    let listing = printed(place(&[], &example));
    for name in ["-table.txt", "a  b*?$HOME'\".txt"] {
        write(room.join(name), &example);
        assert_eq!(printed(run(script().current_dir(&room).args(["--", name]), &[b""])), listing);
    }
    symlink(root().join("place"), room.join("link")).expect("a link");
    let mut link = Command::new(room.join("link"));
    link.envs(script().get_envs().filter_map(|(name, value)| Some((name, value?))));
    assert_eq!(printed(run(link.current_dir("/"), &[&example])), listing);
}

fn write_program(path: PathBuf, lines: &str) {
    fs::create_dir_all(path.parent().expect("its folder")).expect("a folder");
    fs::write(&path, format!("#!/bin/sh\n{lines}\n")).expect("a file");
    fs::set_permissions(path, fs::Permissions::from_mode(0o755)).expect("a program");
}

/// What a program printed before it failed is not shown, and its status is passed on.
#[test]
fn a_program_that_fails() {
    let room = room("failing");
    write_program(room.join("place"), "echo found\nexit 3");
    for arguments in [vec!["tables/example.txt"], vec!["--names", "tables/example.txt"]] {
        let ran = run(script().env("RATTLE_BIN", &room).current_dir(root()).args(arguments), &[b""]);
        refuses("failing", ran, 3, "place: the program ended with status 3");
    }
    let ran = run(script().env("RATTLE_BIN", room.join("none")), &[b""]);
    refuses("none", ran, 2, &format!("place: {} is missing", room.join("none/place").display()));
}

/// A copy of the script in a folder where nothing is built, with builders that copy what is built elsewhere, and
/// with what else it calls.
fn unbuilt(name: &str) -> (PathBuf, Command) {
    let room = room(name);
    fs::copy(root().join("place"), room.join("place")).expect("a copy");
    for folder in ["crates/place", "tools"] {
        fs::create_dir_all(room.join(folder)).expect("a folder");
    }
    let copy = |from: &Path, to: &str| format!("mkdir -p {to} && cp {} {to}/", from.display());
    write_program(room.join("bin/rt"), &copy(&folder().join("place"), "out"));
    let table = Path::new(env!("CARGO_BIN_EXE_table"));
    write_program(room.join("bin/cargo"), &copy(table, "target/release"));
    for tool in
        ["cat", "cp", "dirname", "head", "mkdir", "mktemp", "mv", "readlink", "rm", "tail", "tr", "wc"]
    {
        symlink(Path::new("/usr/bin").join(tool), room.join("bin").join(tool)).expect("a link");
    }
    let mut command = Command::new(room.join("place"));
    command.env_remove("RATTLE_BIN").env_remove("RATTLE_TOOLS").env("PATH", room.join("bin"));
    (room, command)
}

/// The first use says what is built and how long it takes; a table file needs no reader of text.
#[test]
fn first_use() {
    let (room, mut command) = unbuilt("first-use");
    let example = fs::read(root().join("tables/example.txt")).expect("a text");
    let (file, _) = encode(str::from_utf8(&example).expect("text")).expect("a sound text");
    let listing = printed(place(&[], &example));
    let program = "place: first use: building the program with its proofs, which takes some tens of minutes: \
                   cd crates/place && rt run\n";
    let first = run(&mut command, &[&file]);
    assert_eq!((String::from_utf8_lossy(&first.said).as_ref(), first.status), (program, Some(0)));
    assert_eq!(String::from_utf8_lossy(&first.printed), listing);
    assert!(!room.join("tools/target").exists());
    let second = run(&mut command, &[&example]);
    let said = String::from_utf8_lossy(&second.said).to_string();
    assert!(said.starts_with("place: first use: building the reader of text tables, which takes "), "{said}");
    assert_eq!(
        (said.lines().count(), String::from_utf8_lossy(&second.printed).as_ref()),
        (1, listing.as_str())
    );
    assert_eq!(printed(run(&mut command, &[&example])), listing);
}

#[test]
fn builders_that_fail_or_are_missing() {
    let (room, mut command) = unbuilt("failing-builder");
    write_program(room.join("bin/rt"), "echo a reason\nexit 1");
    let ran = run(&mut command, &[b""]);
    let said = String::from_utf8_lossy(&ran.said).to_string();
    assert!(said.ends_with("\na reason\nplace: building the program with its proofs failed\n"), "{said}");
    assert_eq!((ran.status, ran.printed), (Some(2), Vec::new()));
    write_program(room.join("bin/rt"), "exit 0");
    let said = String::from_utf8(run(&mut command, &[b""]).said).expect("UTF-8");
    assert!(
        said.ends_with("crates/place/out/place is missing, though the program with its proofs was built\n"),
        "{said}"
    );
    fs::remove_file(room.join("bin/rt")).expect("the builder");
    let missing = "place: building the program with its proofs needs the command rt, which is not there";
    refuses("no builder", run(&mut command, &[b""]), 2, missing);
}
