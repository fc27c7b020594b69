//! The examples in C and Rust: they compile without a warning, link with the tool, and print what they should.

use std::path::{Path, PathBuf};
use std::process::Command;
use tools::examples::searching::three;
use tools::examples::task;
use tools::file::encode;
use tools::model::Table;
use tools::program::{root, run};

fn library() -> PathBuf {
    PathBuf::from(
        std::env::var("RATTLE_STATICLIB").expect("RATTLE_STATICLIB names the folder of libplacement.a"),
    )
}

/// Compiles an example; the compiler gets its source and the program's path last.
fn compiled(compiler: &mut Command, source: &str) -> PathBuf {
    let program = Path::new(env!("CARGO_TARGET_TMPDIR")).join(source.replace('.', "-"));
    let status = compiler.arg("-o").arg(&program).status().unwrap_or_else(|error| panic!("{error}"));
    assert!(status.success(), "{source}");
    program
}

fn of_c(source: &str) -> PathBuf {
    let mut gcc = Command::new("gcc");
    gcc.args(["-std=c11", "-Wall", "-Wextra", "-Werror", "-I"]).arg(root().join("include"));
    gcc.arg(root().join("examples").join(source)).arg(library().join("libplacement.a"));
    compiled(&mut gcc, source)
}

fn of_rust(source: &str) -> PathBuf {
    let mut rustc = Command::new("rustc");
    rustc.args(["--edition", "2024", "-D", "warnings", "-l", "static=placement", "-L"]).arg(library());
    compiled(rustc.arg(root().join("examples").join(source)), source)
}

fn prints(program: &Path, arguments: &[&str], file: &[u8], lines: &str) {
    let ran = run(Command::new(program).args(arguments), &[file]);
    assert_eq!((ran.status, String::from_utf8_lossy(&ran.said).as_ref()), (Some(0), ""));
    assert_eq!(String::from_utf8_lossy(&ran.printed), lines, "{}", program.display());
}

#[test]
fn judging() {
    prints(&of_c("judge.c"), &[], b"", "0\n107\n13\n");
}

/// The program's example. On one processor the third task would end at 10, past its deadline of 9. Where task 1
/// may not stand on processor 1, that is broken first, and responses and margins are there all the same. With
/// 2 4 4 above 3 6 6 the second would end at 7, past its period.
#[test]
fn judging_task_by_task() {
    let program = of_c("tasks.c");
    let example = encode(&three());
    let kept = "every rule is kept\n\
        task 0 on 0 response 1 margin 3\ntask 1 on 0 response 3 margin 3\ntask 2 on 1 response 3 margin 6\n";
    prints(&program, &["0", "0", "1"], &example, kept);
    let late = "rule 107 is broken, number concerned 2\n\
        task 0 on 0 response 1 margin 3\ntask 1 on 0 response 3 margin 3\ntask 2 on 0 late by 1\n";
    prints(&program, &["0", "0", "0"], &example, late);
    let mut bound = three();
    bound.tasks[1].residence = 1;
    let elsewhere = "rule 101 is broken, number concerned 1\n\
        task 0 on 1 response 1 margin 3\ntask 1 on 1 response 3 margin 3\ntask 2 on 1 late by 1\n";
    prints(&program, &["1", "1", "1"], &encode(&bound), elsewhere);
    let full = Table { tasks: vec![task(2, 4, 4, 30), task(3, 6, 6, 20)], ..three() };
    let beyond = "rule 107 is broken, number concerned 1\n\
        task 0 on 0 response 2 margin 2\ntask 1 on 0 late beyond its period\n";
    prints(&program, &["0", "0"], &encode(&full), beyond);
    prints(&program, &["0", "0"], &example, "refused: cause 13 at 0\n");
    prints(&program, &["0", "0", "0", "0"], &example, "refused: cause 13 at 0\n");
    prints(&program, &["0", "0", "2"], &example, "refused: cause 14 at 2\n");
    prints(&program, &["0", "0"], &example[..87], "refused: cause 1 at 66\n");
}

/// The program's example; two of its tasks, which are in time together, without the memory for one, so that
/// no placement keeps the rules and no set is a conflict; and a file that is cut in its last record, at 66.
#[test]
fn searching() {
    let example = encode(&three());
    let mut crowded = three();
    crowded.tasks.truncate(2);
    crowded.tasks[1].memory = 101;
    for program in [of_c("search.c"), of_rust("search.rs")] {
        let found = "placed on 0 0 1\nthese cannot share a processor: 0 1 2\nthe list is complete\n";
        prints(&program, &[], &example, found);
        prints(&program, &[], &encode(&crowded), "no placement\nthe list is complete\n");
        prints(&program, &[], &example[..87], "refused: cause 1 at 66\n");
    }
}
