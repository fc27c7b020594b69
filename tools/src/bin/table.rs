//! Tables that people write, and listings that they read. tables/README.md describes the text.
//!
//!     table encode FILE        text to a table file; a table file is copied as it is
//!     table decode FILE        a table file to text, with made-up names
//!     table round-trip FILE    a text or table file to a file, to text and to a file again: the text, if both
//!                              files are the same
//!     table listing FILE       the listing of a text or table file, by the independent search
//!     table explain FILE       the listing on standard input with the names of the text or table file
//!
//! A second name behind FILE is what messages call it. The result goes to standard output. If there is none,
//! the reason goes to standard error, and the exit status is 1.

use std::io::{Write, read_to_string, stdin, stdout};
use std::process::ExitCode;
use std::{env, fs};
use tools::comparison::searching::search_pruned;
use tools::explain::explain;
use tools::listing::{listing, parse};
use tools::model::Table;
use tools::reader::read;
use tools::text::sheet::encode;
use tools::text::write::write;
use tools::text::{Mistake, Names, is_text, of_bytes};

const USAGE: &str = "usage: table encode|decode|round-trip|listing|explain FILE [NAME]";

/// Why there is no result.
enum Reason {
    Mistakes(Vec<Mistake>),
    Other(String),
}

type Output = Result<Vec<u8>, Reason>;

fn main() -> ExitCode {
    let arguments: Vec<String> = env::args().skip(1).collect();
    let written =
        output(&arguments).and_then(|bytes| stdout().write_all(&bytes).map_err(|error| error.to_string()));
    match written {
        Ok(()) => ExitCode::SUCCESS,
        Err(reason) => {
            eprintln!("{reason}");
            ExitCode::FAILURE
        }
    }
}

fn output(arguments: &[String]) -> Result<Vec<u8>, String> {
    let words: Vec<&str> = arguments.iter().map(String::as_str).collect();
    let (command, path, name) = match words[..] {
        [command, path] => (command, path, path),
        [command, path, name] => (command, path, name),
        _ => return Err(USAGE.to_string()),
    };
    let run = match command {
        "encode" => encoded,
        "decode" => decoded,
        "round-trip" => round_trip,
        "listing" => listed,
        "explain" => explained,
        _ => return Err(USAGE.to_string()),
    };
    let content = fs::read(path).map_err(|error| format!("{name}: {error}"))?;
    run(&content).map_err(|reason| reason.with_name(name))
}

impl Reason {
    fn with_name(&self, name: &str) -> String {
        match self {
            Reason::Mistakes(mistakes) => {
                mistakes.iter().map(|mistake| format!("{name}:{mistake}")).collect::<Vec<_>>().join("\n")
            }
            Reason::Other(reason) => format!("{name}: {reason}"),
        }
    }
}

impl From<&str> for Reason {
    fn from(reason: &str) -> Reason {
        Reason::Other(reason.to_string())
    }
}

/// The table file in or behind this content, and the names if it is text.
fn table_file(content: &[u8]) -> Result<(Vec<u8>, Option<Names>), Reason> {
    if !is_text(content) {
        return Ok((content.to_vec(), None));
    }
    let text = of_bytes(content).map_err(|mistake| Reason::Mistakes(vec![mistake]))?;
    let (file, names) = encode(text).map_err(Reason::Mistakes)?;
    Ok((file, Some(names)))
}

fn encoded(content: &[u8]) -> Output {
    Ok(table_file(content)?.0)
}

fn table_of(file: &[u8]) -> Result<Table, Reason> {
    read(file).map_err(|refusal| {
        let (number, words) = (refusal.cause as u8, refusal.cause.words());
        Reason::Other(format!("refused {number} {}: {words}", refusal.place))
    })
}

fn decoded(content: &[u8]) -> Output {
    let table = table_of(content)?;
    Ok(write(&table, &Names::made_up(&table)).into_bytes())
}

fn round_trip(content: &[u8]) -> Output {
    let (file, names) = table_file(content)?;
    let table = table_of(&file)?;
    let names = names.unwrap_or_else(|| Names::made_up(&table));
    let text = write(&table, &names);
    match encode(&text) {
        Ok(again) if again == (file, names) => Ok(text.into_bytes()),
        _ => Err("the text of this table is that of another".into()),
    }
}

fn listed(content: &[u8]) -> Output {
    let (file, _) = table_file(content)?;
    Ok(listing(&file, &search_pruned).to_string().into_bytes())
}

fn explained(content: &[u8]) -> Output {
    let (file, names) = table_file(content)?;
    let printed = read_to_string(stdin()).map_err(|error| Reason::Other(error.to_string()))?;
    let listing = parse(&printed).ok_or("what stands on standard input is not a listing")?;
    let explained = explain(&file, names, &listing).ok_or("the listing is not one of this table")?;
    Ok(explained.into_bytes())
}
