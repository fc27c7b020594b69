//! The question of a table file, for `scripts/solvers`.
//!
//!     question clingo FILE       facts for tools/solvers/placement.lp
//!     question minizinc FILE     data for tools/solvers/placement.mzn

use std::process::ExitCode;
use std::{env, fs};
use tools::question::Question;
use tools::reader::read;

fn main() -> ExitCode {
    let arguments: Vec<String> = env::args().skip(1).collect();
    match text(&arguments) {
        Ok(text) => {
            print!("{text}");
            ExitCode::SUCCESS
        }
        Err(reason) => {
            eprintln!("{reason}");
            ExitCode::FAILURE
        }
    }
}

fn text(arguments: &[String]) -> Result<String, String> {
    let [solver, path] = arguments else {
        return Err("usage: question clingo|minizinc FILE".to_string());
    };
    let file = fs::read(path).map_err(|error| format!("{path}: {error}"))?;
    let table = read(&file).map_err(|refusal| format!("{path}: {}", refusal.cause.words()))?;
    let question = Question::of(&table).ok_or(format!("{path}: sums that exceed 32 bits"))?;
    match solver.as_str() {
        "clingo" => Ok(question.facts()),
        "minizinc" => Ok(question.data()),
        _ => Err(format!("no such solver: {solver}")),
    }
}
