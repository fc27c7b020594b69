//! The examples in README.md: each command is run, and prints what stands under it there.

use std::fs;
use std::os::unix::fs::symlink;
use std::path::{Path, PathBuf};
use std::process::Command;
use tools::examples::searching::LISTING;
use tools::program::{Ran, folder, root, run};

#[derive(Debug, PartialEq, Eq)]
struct Example {
    command: String,
    printed: String,
}

/// In a block that is set in, a line with `$` is a command; what follows is printed. The empty lines behind a
/// block are none of it.
fn examples(readme: &str) -> Vec<Example> {
    let mut examples: Vec<Example> = Vec::new();
    let mut inside = false;
    for line in readme.lines() {
        let block = if line.is_empty() { Some("") } else { line.strip_prefix("    ") };
        match (block.map(|line| (line, line.strip_prefix("$ "))), examples.last_mut()) {
            (Some((_, Some(command))), _) => {
                examples.push(Example { command: command.to_string(), printed: String::new() });
                inside = true;
            }
            (Some((line, None)), Some(example)) if inside => example.printed += &format!("{line}\n"),
            _ => inside = false,
        }
    }
    examples.iter_mut().for_each(|example| without_empty_end(&mut example.printed));
    examples
}

fn without_empty_end(text: &mut String) {
    text.truncate(text.trim_end().len());
    if !text.is_empty() {
        text.push('\n');
    }
}

/// A folder that looks like the repository with all built, as examples may write into it.
fn copy_of_the_root(name: &str) -> PathBuf {
    let room = Path::new(env!("CARGO_TARGET_TMPDIR")).join(name);
    let _ = fs::remove_dir_all(&room);
    for folder in ["crates/place", "crates/placement", "tools/target"] {
        fs::create_dir_all(room.join(folder)).expect("a folder");
    }
    let library =
        std::env::var("RATTLE_STATICLIB").expect("RATTLE_STATICLIB names the folder of libplacement.a");
    let tools = Path::new(env!("CARGO_BIN_EXE_table")).parent().expect("its folder");
    let links = [
        (folder(), "crates/place/out"),
        (PathBuf::from(library), "crates/placement/out"),
        (tools.to_path_buf(), "tools/target/release"),
        (root().join("tables"), "tables"),
        (root().join("examples"), "examples"),
        (root().join("include"), "include"),
    ];
    for (from, to) in links {
        symlink(from, room.join(to)).expect("a link");
    }
    fs::copy(root().join("place"), room.join("place")).expect("the script");
    room
}

/// What it prints and says, as a terminal shows it.
fn shown(example: &Example, room: &Path) -> String {
    let mut shell = Command::new("sh");
    shell
        .args(["-c", &example.command])
        .current_dir(room)
        .env_remove("RATTLE_BIN")
        .env_remove("RATTLE_TOOLS");
    let Ran { printed, said, .. } = run(&mut shell, &[b""]);
    String::from_utf8([printed, said].concat()).expect("UTF-8")
}

fn readme() -> String {
    fs::read_to_string(root().join("README.md")).expect("README.md")
}

#[test]
fn every_example_prints_what_stands_there() {
    let (examples, room) = (examples(&readme()), copy_of_the_root("readme"));
    let first = Example { command: "./place tables/example.txt".to_string(), printed: LISTING.to_string() };
    assert_eq!(examples[0], first);
    assert!(examples.len() >= 9, "{examples:?}");
    for example in &examples {
        assert_eq!(shown(example, &room), example.printed, "{}", example.command);
    }
}

/// An example with another word, a line more or a line less is noticed.
#[test]
fn wrong_examples_are_noticed() {
    let room = copy_of_the_root("wrong-readme");
    let right = &examples(&readme())[0];
    let wrong = [
        right.printed.replace("583", "584"),
        right.printed.replace("load 1 250\n", ""),
        format!("{}complete\n", right.printed),
        String::new(),
    ];
    for printed in wrong {
        let text = format!("    $ {}\n{}", right.command, indented(&printed));
        let [example] = &examples(&text)[..] else { panic!("one example") };
        assert_eq!(example.printed, printed);
        assert_ne!(shown(example, &room), example.printed);
    }
}

fn indented(text: &str) -> String {
    text.lines().map(|line| format!("    {line}\n")).collect()
}

#[test]
fn examples_are_taken_from_blocks() {
    let text =
        "words\n\n    $ one\n    1\n\n      2\n\nwords\n\n    no command\n    $ two\n    $ three\n    3\n";
    let example =
        |command: &str, printed: &str| Example { command: command.to_string(), printed: printed.to_string() };
    assert_eq!(examples(text), [example("one", "1\n\n  2\n"), example("two", ""), example("three", "3\n")]);
}
