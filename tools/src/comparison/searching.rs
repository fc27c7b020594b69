//! Checks a search: on small tables, for which all placements can be tried and each processor run tick by
//! tick, and on medium ones.

use crate::file::encode;
use crate::generate::crowded::{medium_table, small_table, table_with_a_long_list};
use crate::generate::faulty::refused_file;
use crate::model::{Cause, Refusal, Table};
use crate::random::Random;
use crate::reader::read;
use crate::schedule::{Lateness, late, runs_late};
use crate::search::checker::{Checker, Fault, Listing};
use crate::search::enumerated::Enumerated;
use crate::search::pruned::Pruned;
use crate::search::{Truth, answer, places, shortest_answer};

/// The count of bytes written, or the refusal.
pub type Answer = Result<usize, Refusal>;

pub type Search<'a> = &'a dyn Fn(&[u8], &mut [u8]) -> Answer;

#[derive(Debug)]
pub enum Wrong {
    Answer(Fault),
    /// Refused otherwise than expected, or refused or answered where the other is due.
    Refusal {
        expected: Option<Refusal>,
        found: Answer,
    },
    /// Refused, but the buffer is not as it was.
    Written,
}

/// The first input that is answered wrongly.
#[derive(Debug)]
pub struct Difference {
    pub file: Vec<u8>,
    pub buffer: usize,
    pub wrong: Wrong,
}

/// How often each outcome was met, and how many tables had records of the kinds that may be absent.
#[derive(Debug, Default)]
pub struct Tally {
    pub found: u64,
    pub none: u64,
    pub cut: u64,
    /// Complete with places left, and with none left.
    pub complete: u64,
    pub complete_and_full: u64,
    pub conflicts: u64,
    /// Lists of more than 32 conflicts.
    pub long: u64,
    pub refused: u64,
    pub with_co_resident: u64,
    pub with_exclusive: u64,
    pub with_messages: u64,
}

impl Tally {
    pub fn answers(&self) -> u64 {
        self.found + self.none
    }

    /// The outcome or kind that was met least often.
    pub fn least(&self) -> u64 {
        let answers = [self.found, self.none, self.cut, self.complete, self.complete_and_full];
        let kinds = [self.with_co_resident, self.with_exclusive, self.with_messages];
        answers.into_iter().chain(kinds).chain([self.conflicts]).min().unwrap_or(0)
    }

    fn note_table(&mut self, table: &Table) {
        self.with_co_resident += u64::from(!table.co_resident.is_empty());
        self.with_exclusive += u64::from(!table.exclusive.is_empty());
        self.with_messages += u64::from(!table.messages.is_empty());
    }

    fn note(&mut self, truth: &dyn Truth, buffer: usize, listing: &Listing) {
        let found = truth.first().is_some();
        let full = listing.conflicts.len() == places(truth.table(), buffer);
        self.found += u64::from(found);
        self.none += u64::from(!found);
        self.cut += u64::from(!listing.complete);
        self.complete += u64::from(listing.complete && !full);
        self.complete_and_full += u64::from(listing.complete && full);
        self.conflicts += listing.conflicts.len() as u64;
        self.long += u64::from(listing.conflicts.len() > 32);
    }
}

const TOO_SHORT: Refusal = Refusal { cause: Cause::BufferTooShort, place: 0 };

/// As long as the buffer that the program gives the search.
pub const PROGRAMS_BUFFER: usize = 16_384;

struct Comparison<'a> {
    candidate: Search<'a>,
    /// For the bytes of the buffers. The tables have their own, so that a seed gives every candidate the
    /// same ones, however long its answers are.
    random: Random,
    tally: Tally,
}

/// Searches so many small tables with every length of the buffer, and as many files that are refused.
pub fn compare_small(seed: u64, tables: usize, candidate: Search) -> Result<Tally, Difference> {
    let mut random = Random::new(seed);
    let mut comparison = Comparison::new(seed, candidate);
    for _ in 0..tables {
        comparison.every_length(&small_table(&mut random))?;
        let (unreadable, refusal) = refused_file(&mut random);
        comparison.refused(&unreadable, random.below(60), refusal)?;
    }
    Ok(comparison.tally)
}

/// Searches so many medium tables, each with some lengths of the buffer.
pub fn compare_medium(seed: u64, tables: usize, candidate: Search) -> Result<Tally, Difference> {
    compare_some_lengths(seed, tables, medium_table, candidate)
}

/// The same for tables with long lists of conflicts.
pub fn compare_long(seed: u64, tables: usize, candidate: Search) -> Result<Tally, Difference> {
    compare_some_lengths(seed, tables, table_with_a_long_list, candidate)
}

fn compare_some_lengths(
    seed: u64,
    tables: usize,
    next_table: fn(&mut Random) -> Table,
    candidate: Search,
) -> Result<Tally, Difference> {
    let mut random = Random::new(seed);
    let mut comparison = Comparison::new(seed, candidate);
    for _ in 0..tables {
        comparison.some_lengths(&next_table(&mut random))?;
    }
    Ok(comparison.tally)
}

impl Comparison<'_> {
    fn new(seed: u64, candidate: Search) -> Comparison {
        Comparison { candidate, random: Random::new(!seed), tally: Tally::default() }
    }

    /// From no byte to the first length with three places more than the answer needs. What is late is what the
    /// tick run shows: no step rests on the response equation.
    fn every_length(&mut self, table: &Table) -> Result<(), Difference> {
        let file = encode(table);
        let truth = Enumerated::of(table, runs_late);
        let mut checker = Checker::new(&truth);
        self.tally.note_table(table);
        let mut buffer = shortest_answer(table);
        (0..buffer).try_for_each(|too_short| self.refused(&file, too_short, TOO_SHORT))?;
        while buffer < self.answered(&file, buffer, &mut checker)? + 3 * 6 {
            buffer += 1;
        }
        Ok(())
    }

    /// The program's buffer, no place, few, one too few, just enough and one too many.
    fn some_lengths(&mut self, table: &Table) -> Result<(), Difference> {
        let file = encode(table);
        let truth = Pruned::of(table);
        let mut checker = Checker::new(&truth);
        self.tally.note_table(table);
        let needed = places(table, self.answered(&file, PROGRAMS_BUFFER, &mut checker)?);
        for places in [0, 1, needed / 2, needed.saturating_sub(1), needed, needed + 1] {
            let buffer = shortest_answer(table) + 6 * places + self.random.below(6);
            self.answered(&file, buffer, &mut checker)?;
        }
        Ok(())
    }

    /// Checks the answer; what comes back is its length.
    fn answered(&mut self, file: &[u8], buffer: usize, checker: &mut Checker) -> Answered {
        let difference = |wrong| Difference { file: file.to_vec(), buffer, wrong };
        let (before, after, found) = self.search(file, buffer);
        let Ok(count) = found else {
            return Err(difference(Wrong::Refusal { expected: None, found }));
        };
        let listing =
            checker.check(&before, &after, count).map_err(|fault| difference(Wrong::Answer(fault)))?;
        self.tally.note(checker.truth, buffer, &listing);
        Ok(count)
    }

    fn refused(&mut self, file: &[u8], buffer: usize, refusal: Refusal) -> Result<(), Difference> {
        let (before, after, found) = self.search(file, buffer);
        let difference = |wrong| Err(Difference { file: file.to_vec(), buffer, wrong });
        if found != Err(refusal) {
            return difference(Wrong::Refusal { expected: Some(refusal), found });
        }
        if after != before {
            return difference(Wrong::Written);
        }
        self.tally.refused += 1;
        Ok(())
    }

    /// The buffer starts with random bytes, so that one that should be left alone shows a change.
    fn search(&mut self, file: &[u8], buffer: usize) -> (Vec<u8>, Vec<u8>, Answer) {
        let before: Vec<u8> = (0..buffer).map(|_| self.random.draw() as u8).collect();
        let mut after = before.clone();
        let answer = (self.candidate)(file, &mut after);
        (before, after, answer)
    }
}

type Answered = Result<usize, Difference>;

/// The table of a search that is not refused.
fn searched_table(file: &[u8], buffer: usize) -> Result<Table, Refusal> {
    let table = read(file)?;
    if buffer < shortest_answer(&table) { Err(TOO_SHORT) } else { Ok(table) }
}

/// The search by trying all placements, refusals included. It goes by the response equation.
pub fn search_all(file: &[u8], buffer: &mut [u8]) -> Answer {
    search_by(late, file, buffer)
}

fn search_by(lateness: Lateness, file: &[u8], buffer: &mut [u8]) -> Answer {
    let table = searched_table(file, buffer.len())?;
    Ok(answer(&Enumerated::of(&table, lateness), buffer))
}

/// The search by the pruned one, refusals included.
pub fn search_pruned(file: &[u8], buffer: &mut [u8]) -> Answer {
    let table = searched_table(file, buffer.len())?;
    Ok(answer(&Pruned::of(&table), buffer))
}

#[cfg(test)]
mod tests {
    use super::*;
    use crate::comparison::misreading::{MISREADINGS, WRONG_LATENESS};
    use crate::conflict::conflict_code;
    use crate::schedule::members;
    use crate::search::head;

    /// An answer with this fault must be found where the wrong search writes it.
    fn detected(what: &str, fault: Fault, wrong: Search) {
        has_found(what, fault, compare_small(10, 2_000, wrong));
    }

    fn detected_in_medium(what: &str, fault: Fault, wrong: Search) {
        has_found(what, fault, compare_medium(10, 50, wrong));
    }

    fn has_found(what: &str, fault: Fault, result: Result<Tally, Difference>) {
        match result {
            Err(Difference { wrong: Wrong::Answer(found), .. }) => assert_eq!(found, fault, "{what}"),
            other => panic!("{what}: {other:?}"),
        }
    }

    /// The right answer, changed: the change gets the table, the buffer and the count.
    fn detected_change(what: &str, fault: Fault, change: &dyn Fn(&Table, &mut [u8], usize) -> usize) {
        detected(what, fault, &|file, buffer| {
            let count = search_all(file, buffer)?;
            Ok(change(&read(file)?, buffer, count))
        });
    }

    fn refused_wrongly(what: &str, wrong: Search) {
        let found = compare_small(10, 100, wrong);
        let refusal = matches!(found, Err(Difference { wrong: Wrong::Refusal { .. } | Wrong::Written, .. }));
        assert!(refusal, "{what}: {found:?}");
    }

    #[test]
    fn the_independent_searches_are_not_suspected_themselves() {
        let small = compare_small(10, 300, &search_all).unwrap_or_else(|difference| panic!("{difference:?}"));
        assert!(small.least() >= 30 && small.refused >= 1_000, "{small:?}");
        let medium =
            compare_medium(10, 20, &search_pruned).unwrap_or_else(|difference| panic!("{difference:?}"));
        assert!(medium.least() >= 3, "{medium:?}");
    }

    #[test]
    fn wrong_heads_are_detected() {
        detected_change("none for all", Fault::Head, &|table, buffer, count| {
            buffer[..table.tasks.len() + 2].copy_from_slice(&head(table, None));
            count
        });
        detected_change("all on the first", Fault::Head, &|table, buffer, count| {
            let first = vec![0; table.tasks.len()];
            buffer[..table.tasks.len() + 2].copy_from_slice(&head(table, Some(&first)));
            count
        });
        detected("nothing written", Fault::Head, &|file, buffer| search_all(file, &mut buffer.to_vec()));
        detected_change("the tasks in reverse", Fault::Head, &|table, buffer, count| {
            buffer[2..2 + table.tasks.len()].reverse();
            count
        });
        detected_change("processors in falling number", Fault::Head, &|table, buffer, count| {
            let falling = first_in_falling_number(table);
            buffer[..table.tasks.len() + 2].copy_from_slice(&head(table, falling.as_deref()));
            count
        });
    }

    fn first_in_falling_number(table: &Table) -> Option<Vec<u8>> {
        let (unused, last) = (16 - table.processors.len(), table.processors.len() as u8 - 1);
        let mut reversed = table.clone();
        reversed.processors.reverse();
        reversed.tasks.iter_mut().for_each(|task| task.residence = task.residence.reverse_bits() >> unused);
        let truth = Enumerated::of(&reversed, runs_late);
        truth.first().map(|placement| placement.iter().map(|processor| last - processor).collect())
    }

    #[test]
    fn wrong_marks_are_detected() {
        for mark in [0, 1] {
            detected_change("always the same mark", Fault::Mark, &|_, buffer, count| {
                buffer[count - 1] = mark;
                count
            });
        }
        detected_change("cut whenever the list is full", Fault::Mark, &|_, buffer, count| {
            buffer[count - 1] &= u8::from(count + 6 <= buffer.len());
            count
        });
        detected_change("cut as soon as a conflict finds no place", Fault::Mark, &|table, buffer, count| {
            let (truth, listed) = (Enumerated::of(table, runs_late), listed(table, &buffer[..count]));
            let unlisted = |mask: u32| !listed.contains(&mask) && truth.is_held(mask);
            if count + 6 > buffer.len() && minimal_conflicts(table).any(unlisted) {
                buffer[count - 1] = 0;
            }
            count
        });
        detected("no conflicts, called complete", Fault::Mark, &|file, buffer| {
            let count = without_conflicts(&search_all, file, buffer)?;
            buffer[count - 1] = 1;
            Ok(count)
        });
        detected("cut with free places", Fault::CutWithPlaces, &|file, buffer| {
            without_conflicts(&search_all, file, buffer)
        });
        detected_change("neither complete nor cut", Fault::Layout, &|_, buffer, count| {
            buffer[count - 1] += 2;
            count
        });
    }

    fn listed(table: &Table, answer: &[u8]) -> Vec<u32> {
        let records = answer[table.tasks.len() + 2..answer.len() - 3].chunks(6);
        records.map(|record| u32::from_le_bytes([record[2], record[3], record[4], record[5]])).collect()
    }

    fn minimal_conflicts(table: &Table) -> impl Iterator<Item = u32> {
        let file = encode(table);
        (1..1 << table.tasks.len()).filter(move |&mask| conflict_code(&file, mask) == 2)
    }

    /// Searches as if there were no place.
    fn without_conflicts(search: Search, file: &[u8], buffer: &mut [u8]) -> Answer {
        let shortest = shortest_answer(&read(file)?).min(buffer.len());
        search(file, &mut buffer[..shortest])
    }

    /// The checks are those of small tables; what differs is how the truth is found.
    #[test]
    fn wrong_answers_for_medium_tables_are_detected() {
        detected_in_medium("cut with free places", Fault::CutWithPlaces, &|file, buffer| {
            without_conflicts(&search_pruned, file, buffer)
        });
        for mark in [0, 1] {
            detected_in_medium("always the same mark", Fault::Mark, &|file, buffer| {
                let count = search_pruned(file, buffer)?;
                buffer[count - 1] = mark;
                Ok(count)
            });
        }
        detected_in_medium("the last task elsewhere", Fault::Head, &|file, buffer| {
            let count = search_pruned(file, buffer)?;
            buffer[shortest_answer(&read(file)?) - 4] ^= 1;
            Ok(count)
        });
    }

    #[test]
    fn a_conflict_again_in_a_long_list_is_detected() {
        for number in [0, 15, 16, 31, 32] {
            has_found(
                "one again",
                Fault::Repeated,
                compare_long(10, 1, &|file, buffer| {
                    let count = search_pruned(file, buffer)?;
                    let again = listed(&read(file)?, &buffer[..count]).get(number).copied();
                    Ok(again.map_or(count, |mask| add_conflict(buffer, count, mask)))
                }),
            );
        }
    }

    #[test]
    fn wrong_counts_and_bytes_are_detected() {
        detected_change("one byte less", Fault::Count, &|_, _, count| count - 1);
        detected_change("the whole buffer", Fault::Count, &|_, buffer, _| buffer.len());
        detected_change("more than the buffer", Fault::Count, &|_, buffer, count| {
            buffer.len() + 6 + count % 6
        });
        detected_change("a conflict's length more", Fault::Layout, &|_, buffer, count| {
            if count + 6 <= buffer.len() { count + 6 } else { count }
        });
        detected_change("a byte behind", Fault::BytesBehind, &|_, buffer, count| {
            buffer.iter_mut().skip(count).for_each(|byte| *byte ^= 1);
            count
        });
        detected_change("another mark for conflicts", Fault::Layout, &|table, buffer, count| {
            if count > shortest_answer(table) {
                buffer[table.tasks.len() + 2] = b'M';
            }
            count
        });
    }

    /// Puts one more record before the end if there is a place.
    fn add_conflict(buffer: &mut [u8], count: usize, mask: u32) -> usize {
        if count + 6 > buffer.len() {
            return count;
        }
        buffer.copy_within(count - 3..count, count + 3);
        buffer[count - 3..count - 1].copy_from_slice(b"NG");
        buffer[count - 1..count + 3].copy_from_slice(&mask.to_le_bytes());
        count + 6
    }

    /// Puts in the first minimal conflict that passes the test.
    fn detected_conflict(what: &str, fault: Fault, test: &dyn Fn(&Table, u32) -> bool) {
        detected_change(what, fault, &|table, buffer, count| {
            let added = minimal_conflicts(table).find(|&mask| test(table, mask));
            added.map_or(count, |mask| add_conflict(buffer, count, mask))
        });
    }

    #[test]
    fn wrong_conflicts_are_detected() {
        detected_change("the first again", Fault::Repeated, &|table, buffer, count| {
            let first = listed(table, &buffer[..count]).first().copied();
            first.map_or(count, |mask| add_conflict(buffer, count, mask))
        });
        detected_change("a task too many", Fault::NotMinimal, &|table, buffer, count| {
            let all = (1 << table.tasks.len()) - 1;
            if conflict_code(&encode(table), all) == 1 { add_conflict(buffer, count, all) } else { count }
        });
        detected_change("an unknown task", Fault::NotMinimal, &|_, buffer, count| {
            add_conflict(buffer, count, 1 << 31)
        });
        detected_change("a set in time", Fault::NotMinimal, &|_, buffer, count| {
            add_conflict(buffer, count, 1)
        });
        let common = |table: &Table, mask: u32| {
            members(mask).fold(u16::MAX, |all, task| all & table.tasks[task].residence)
        };
        detected_conflict("no common residence", Fault::NotHeld, &|table, mask| common(table, mask) == 0);
        detected_conflict("behind the answer", Fault::NotHeld, &|table, mask| {
            common(table, mask) != 0 && !Enumerated::of(table, runs_late).is_held(mask)
        });
    }

    #[test]
    fn wrong_refusals_are_detected() {
        refused_wrongly("refuses all", &|_, _| Err(Refusal { cause: Cause::Cut, place: 0 }));
        refused_wrongly("a byte more asked for", &|file, buffer| match read(file) {
            Ok(table) if buffer.len() == shortest_answer(&table) => Err(TOO_SHORT),
            _ => search_all(file, buffer),
        });
        refused_wrongly("the buffer before the file", &|file, buffer| match buffer.len() {
            0..6 => Err(TOO_SHORT),
            _ => search_all(file, buffer),
        });
        refused_wrongly("cleared before it is refused", &|file, buffer| {
            let answer = search_all(file, buffer);
            if answer.is_err() {
                buffer.fill(0);
            }
            answer
        });
    }

    /// The right search but for what it takes to be late.
    #[test]
    fn wrong_lateness_is_detected() {
        for (what, wrong) in WRONG_LATENESS {
            let found = compare_small(10, 500, &|file, buffer| search_by(wrong, file, buffer));
            assert!(matches!(found, Err(Difference { wrong: Wrong::Answer(_), .. })), "{what}: {found:?}");
        }
    }

    /// The right search of a table that was read wrongly.
    fn detected_table(what: &str, change: &dyn Fn(&mut Table)) {
        let found = compare_small(10, 500, &|file, buffer| {
            let mut table = read(file)?;
            change(&mut table);
            search_all(&encode(&table), buffer)
        });
        assert!(matches!(found, Err(Difference { wrong: Wrong::Answer(_), .. })), "{what}: {found:?}");
    }

    #[test]
    fn misread_tables_are_detected() {
        for (what, misread) in MISREADINGS {
            detected_table(what, &misread);
        }
        detected_table("limits overlooked", &|table| {
            table.processors.iter_mut().for_each(|processor| processor.limit = 1000);
        });
    }
}
