//! Files whose reading is worked out by hand from 01's refusal table and from the points that it
//! leaves open. Lengths: NT 6, PR 8, TK 22, CO and EX 6, MS 8 bytes; so after one NT and one PR
//! the first TK stands at 14, the second at 36, and what follows two tasks at 58.

use super::{message, processor, task};
use crate::file::File;
use crate::model::Task;

pub struct Example {
    pub what: &'static str,
    pub file: File,
    /// 0 where the file is read.
    pub number: u64,
    pub place: u64,
}

fn read(what: &'static str, file: File) -> Example {
    Example { what, file, number: 0, place: 0 }
}

fn refused(what: &'static str, file: File, number: u64, place: u64) -> Example {
    Example { what, file, number, place }
}

/// NT and one PR: 14 bytes.
fn head() -> File {
    File::new().network(5).processor(processor(100, 1000))
}

/// NT and eight PR: 6 + 64 = 70 bytes.
fn eight_processors() -> File {
    (0..8).fold(File::new().network(5), |file, _| file.processor(processor(100, 1000)))
}

/// NT, one PR and two TK with these periods: 58 bytes.
fn two_tasks(first: u32, second: u32) -> File {
    head().task(task(1, first, first, 9)).task(task(1, second, second, 8))
}

/// NT, eight PR and 24 TK of one period: 70 + 528 = 598 bytes.
fn many_tasks() -> File {
    (0..24).fold(eight_processors(), |file, priority| file.task(task(1, 4, 4, priority)))
}

/// `many_tasks`, 16 CO, 16 EX and 64 MS: 598 + 96 + 96 + 512 = 1,302 bytes.
fn full() -> File {
    let groups = (0..16).fold(many_tasks(), |file, k| file.co_resident(3 << k));
    let groups = (0..16).fold(groups, |file, k| file.exclusive(3 << k));
    (0..64).fold(groups, |file, k| file.message(message(k / 8, 8 + k % 8, 1)))
}

pub fn all() -> Vec<Example> {
    let mut examples = of_the_refusal_table();
    examples.extend(cut_or_unknown());
    examples.extend(out_of_order_or_too_many());
    examples.extend(not_in_the_file());
    examples.extend(ranges());
    examples.extend(repeated_or_too_far());
    examples.extend(at_the_end());
    examples
}

/// The column "Small example", in its order.
fn of_the_refusal_table() -> Vec<Example> {
    let twice = two_tasks(4, 4).message(message(0, 1, 1)).message(message(0, 1, 2));
    let unplaced = Task { residence: 0, ..task(1, 4, 4, 9) };
    vec![
        refused("4E 54 01 00", File::new().raw(&[0x4E, 0x54, 0x01, 0x00]), 1, 0),
        refused("51 51 at the start", File::new().raw(&[0x51, 0x51]), 2, 0),
        refused("NT, PR, NT", head().network(5), 3, 14),
        refused("a ninth PR", eight_processors().processor(processor(100, 1000)), 4, 70),
        refused("C 5, D 4, T 8", head().task(task(5, 8, 4, 9)), 5, 14),
        refused("residence 0", head().task(unplaced), 6, 14),
        refused("two TK of priority 9", head().task(task(1, 4, 4, 9)).task(task(1, 4, 4, 9)), 7, 36),
        refused("periods 4 and 6", two_tasks(4, 6).message(message(0, 1, 1)), 8, 58),
        refused("0 to 1 twice", twice, 9, 66),
        refused("periods 1,000,000 and 1,001", two_tasks(1_000_000, 1_001), 10, 36),
        refused("empty input", File::new(), 11, 0),
    ]
}

/// Causes 1 and 2: a cut record is 1 also where 3 or 4 would hold.
fn cut_or_unknown() -> Vec<Example> {
    vec![
        refused("one byte of a mark", File::new().raw(b"N"), 1, 0),
        refused("one byte that begins no mark", File::new().raw(b"Q"), 1, 0),
        refused("one byte after a whole file", two_tasks(4, 4).raw(b"Q"), 1, 58),
        refused("an unknown mark needs two bytes only", two_tasks(4, 4).raw(b"QQ"), 2, 58),
        refused("a mark right in its first byte", File::new().raw(b"NX\0\0\0\0"), 2, 0),
        refused("a mark right in its second byte", File::new().raw(b"XT\0\0\0\0"), 2, 0),
        refused("a mark in small letters", File::new().raw(b"nt\0\0\0\0"), 2, 0),
        refused("a mark of the answer", two_tasks(4, 4).raw(b"EN\x01"), 2, 58),
        refused("a mark alone", File::new().raw(b"NT"), 1, 0),
        refused("a second NT, cut", File::new().network(5).raw(b"NT\0\0\0"), 1, 6),
        refused("a ninth PR, cut", eight_processors().raw(b"PR\0\0\0\0\0"), 1, 70),
        refused("a TK of C 0, cut", head().raw(b"TK\0\0\0\0"), 1, 14),
        refused("the first fault decides", head().raw(b"QQ").raw(b"N"), 2, 14),
    ]
}

/// Causes 3 and 4: 3 before 4, and a second NT is never 4.
fn out_of_order_or_too_many() -> Vec<Example> {
    let sixteen_co = (0..16).fold(two_tasks(4, 4), |file, _| file.co_resident(3));
    let sixteen_ex = (0..16).fold(two_tasks(4, 4), |file, _| file.exclusive(3));
    let ninth_late = eight_processors().task(task(1, 4, 4, 9)).processor(processor(100, 1000));
    vec![
        refused("a second NT at once", File::new().network(5).network(5), 3, 6),
        refused("NT after PR, the first NT", File::new().processor(processor(1, 1)).network(5), 3, 8),
        refused("a ninth PR after a TK", ninth_late, 3, 92),
        refused("a 17th CO", sixteen_co.clone().co_resident(3), 4, 154),
        refused("a 17th CO after an EX", sixteen_co.exclusive(3).co_resident(3), 3, 160),
        refused("a 17th EX", sixteen_ex.exclusive(3), 4, 154),
        refused("EX after MS", two_tasks(4, 4).message(message(0, 1, 1)).exclusive(3), 3, 66),
        refused("TK after CO", two_tasks(4, 4).co_resident(3).task(task(1, 4, 4, 7)), 3, 64),
        refused("a 25th TK", many_tasks().task(task(1, 4, 4, 24)), 4, 598),
        refused("a 25th TK of a used priority", many_tasks().task(task(1, 4, 4, 3)), 4, 598),
        read("as many of each kind as allowed", full()),
        refused("a 65th MS", full().message(message(20, 21, 1)), 4, 1302),
        refused("a 65th MS of a used pair", full().message(message(0, 8, 1)), 4, 1302),
    ]
}

/// Cause 6: "in the file" means among the records before it.
fn not_in_the_file() -> Vec<Example> {
    let on = |residence: u16| Task { residence, ..task(1, 4, 4, 9) };
    let network = || File::new().network(5);
    vec![
        refused("NT, TK, PR", network().task(on(1)).processor(processor(100, 1000)), 6, 6),
        refused("TK of C 0 without PR", network().task(task(0, 4, 4, 9)), 5, 6),
        refused("a TK alone", File::new().task(on(1)), 6, 0),
        refused("the second of one processor", head().task(on(2)), 6, 14),
        refused("a known and an unknown processor", head().task(on(3)), 6, 14),
        refused("residence bit 8", eight_processors().task(on(1 << 8)), 6, 70),
        refused("residence bit 15", eight_processors().task(on(1 << 15)), 6, 70),
        read("all eight processors", eight_processors().task(on(255))),
        refused("CO without TK", head().co_resident(3), 6, 14),
        refused("EX without TK", head().exclusive(3), 6, 14),
        refused("MS without TK", head().message(message(0, 1, 1)), 6, 14),
        refused("MS of amount 0 without TK", head().message(message(0, 1, 0)), 5, 14),
        refused("a group of none", two_tasks(4, 4).co_resident(0), 6, 58),
        refused("a group of one", two_tasks(4, 4).exclusive(2), 6, 58),
        refused("a third task in a group", two_tasks(4, 4).co_resident(7), 6, 58),
        refused("group bit 24", many_tasks().co_resident(1 << 24 | 1), 6, 598),
        refused("group bit 31", many_tasks().exclusive(1 << 31 | 1), 6, 598),
        read("a group of all 24", many_tasks().co_resident(0xFF_FFFF)),
        refused("receiver 2 of two tasks", two_tasks(4, 4).message(message(0, 2, 1)), 6, 58),
        refused("sender 255", two_tasks(4, 4).message(message(255, 0, 1)), 6, 58),
        refused("sender equal to receiver", two_tasks(4, 4).message(message(1, 1, 1)), 6, 58),
    ]
}

/// Cause 5.
fn ranges() -> Vec<Example> {
    let limit = |limit: u16| File::new().network(5).processor(processor(0, limit));
    let timed = |c, t, d| head().task(task(c, t, d, 9));
    let amount = |amount| two_tasks(4, 4).message(message(0, 1, amount));
    vec![
        refused("limit 0", limit(0), 5, 6),
        refused("limit 1001", limit(1001), 5, 6),
        read("limit 1", limit(1).task(task(1, 4, 4, 9))),
        read("limit 1000", limit(1000).task(task(1, 4, 4, 9))),
        refused("C 0", timed(0, 4, 4), 5, 14),
        refused("C, D and T 0", timed(0, 0, 0), 5, 14),
        refused("D above T", timed(1, 4, 5), 5, 14),
        refused("D 0", timed(1, 4, 0), 5, 14),
        read("C, D and T 1", timed(1, 1, 1)),
        read("C, D and T 1,000,000", timed(1_000_000, 1_000_000, 1_000_000)),
        refused("T 1,000,001", timed(1, 1_000_001, 1), 5, 14),
        refused("T with its highest bit alone", timed(1, 1 << 31, 1), 5, 14),
        refused("amount 0", amount(0), 5, 58),
        refused("amount 1,000,001", amount(1_000_001), 5, 58),
        read("amount 1", amount(1)),
        read("amount 1,000,000", amount(1_000_000)),
        read("capacity 0", File::new().network(0).processor(processor(0, 1)).task(task(1, 1, 1, 0))),
    ]
}

/// Causes 7 to 10. 7 looks at every earlier TK; 9 at ordered pairs; 10 comes after 7.
fn repeated_or_too_far() -> Vec<Example> {
    let circle = two_tasks(4, 4).message(message(0, 1, 1)).message(message(1, 0, 1));
    let used_and_far = head().task(task(1, 1_000_000, 4, 9)).task(task(1, 1_001, 4, 9));
    vec![
        refused("the priority of the first of three", two_tasks(4, 4).task(task(1, 4, 4, 9)), 7, 58),
        read("a circle of messages", circle.clone()),
        refused("a pair of two messages before", circle.message(message(0, 1, 1)), 9, 74),
        refused("used priority and a period too far", used_and_far, 7, 36),
        read("periods 1,000,000 and 999", two_tasks(1_000_000, 999)),
        read("333,667 × 2,997 = 999,999,999", two_tasks(333_667, 2_997)),
        refused("52,579 × 19,019 = 1,000,000,001", two_tasks(52_579, 19_019), 10, 36),
        refused("too far with the third", two_tasks(1_000_000, 999).task(task(1, 7, 7, 7)), 10, 58),
        read("no multiple beyond the others", two_tasks(1_000_000, 999).task(task(1, 250, 250, 7))),
    ]
}

/// Cause 11, and files that are read although no placement can be found for them.
fn at_the_end() -> Vec<Example> {
    let without_network = File::new().processor(processor(100, 1000)).task(task(1, 4, 4, 9));
    let groups = two_tasks(4, 4).co_resident(3).co_resident(3).exclusive(3).exclusive(3);
    vec![
        refused("NT alone", File::new().network(5), 11, 6),
        refused("NT and PR", head(), 11, 14),
        refused("PR and TK", without_network, 11, 30),
        refused("PR alone", File::new().processor(processor(100, 1000)), 11, 8),
        read("one task", head().task(task(1, 4, 4, 9))),
        read("repeated groups, both CO and EX, EX wider than the processors", groups),
    ]
}

#[cfg(test)]
mod tests {
    use super::*;
    use crate::reader::read_code;

    #[test]
    fn the_reader_agrees_with_every_example() {
        for example in all() {
            let expected = example.number << 32 | example.place;
            assert_eq!(read_code(&example.file.bytes), expected, "{}", example.what);
        }
    }
}
