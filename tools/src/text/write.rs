//! A table as text: its lines in the file's order, the words of a kind under one another.

use super::Names;
use super::line::keyword;
use crate::columns::aligned;
use crate::model::*;
use crate::schedule::members;

pub fn write(table: &Table, names: &Names) -> String {
    let network = vec![row(Kind::Network, [table.capacity.to_string()])];
    let processors = table.processors.iter().zip(&names.processors).map(|(&own, name)| processor(own, name));
    let tasks = table.tasks.iter().zip(&names.tasks).map(|(own, name)| task(own, name, names));
    let together = table.co_resident.iter().map(|&set| row(Kind::CoResident, named(&names.tasks, set)));
    let apart = table.exclusive.iter().map(|&set| row(Kind::Exclusive, named(&names.tasks, set)));
    let messages = table.messages.iter().map(|own| message(own, names));
    let kinds = [network, processors.collect(), tasks.collect(), together.collect(), apart.collect()];
    kinds.iter().chain([&messages.collect()]).map(|rows| aligned(rows, " ")).collect()
}

fn row(kind: Kind, words: impl IntoIterator<Item = String>) -> Vec<String> {
    [keyword(kind).to_string()].into_iter().chain(words).collect()
}

/// As they are written.
pub fn words<const N: usize>(words: [&dyn ToString; N]) -> [String; N] {
    words.map(|word| word.to_string())
}

fn processor(processor: Processor, name: &str) -> Vec<String> {
    row(Kind::Processor, words([&name, &"memory", &processor.memory, &"limit", &processor.limit]))
}

/// Without `on` where the task may stand on every processor.
fn task(task: &Task, name: &str, names: &Names) -> Vec<String> {
    let Task { execution, period, deadline, memory, priority, residence } = task;
    let times = words([&"takes", execution, &"every", period, &"within", deadline]);
    let others = words([&"memory", memory, &"priority", priority]);
    let on = match residence.count_ones() as usize == names.processors.len() {
        true => Vec::new(),
        false => [vec!["on".to_string()], named(&names.processors, u32::from(*residence))].concat(),
    };
    row(Kind::Task, [name.to_string()].into_iter().chain(times).chain(others).chain(on))
}

fn message(message: &Message, names: &Names) -> Vec<String> {
    let [sender, receiver] = [message.sender, message.receiver].map(|task| &names.tasks[usize::from(task)]);
    row(Kind::Message, words([sender, &"->", receiver, &message.amount]))
}

/// The names of a set's members.
pub fn named(names: &[String], set: u32) -> Vec<String> {
    members(set).map(|member| names[member].clone()).collect()
}
