//! Checks all that a program prints, against the independent reader, search and judge. Which conflicts are
//! listed and in which order is free: these are checked, everything else is compared to the letter.

use super::loads::Loads;
use super::searching::PROGRAMS_BUFFER;
use crate::generate::files::Sort;
use crate::judge::Placed;
use crate::listing::{Found, Listing, of_answer, parse};
use crate::model::{CAUSES, Refusal, Table};
use crate::program::{Ran, pieces};
use crate::random::Random;
use crate::reader::read;
use crate::schedule::is_late;
use crate::search::Truth;
use crate::search::checker::{Checker, Fault};
use crate::search::enumerated::Enumerated;
use crate::search::pruned::Pruned;

/// What a program leaves for these pieces of standard input.
pub type Program<'a> = &'a dyn Fn(&[&[u8]]) -> Ran;

#[derive(Debug, PartialEq, Eq)]
pub enum Wrong {
    /// An exit status other than 0, or words on standard error.
    End,
    /// Refused otherwise than expected, or refused or answered where the other is due.
    Refusal { expected: Option<Refusal> },
    /// Not in the form of a listing, or not one of this table.
    Form,
    /// The placement, the conflicts or the mark.
    Answer(Fault),
    /// Responses, deadlines, margins or loads; what is right.
    Facts { right: String },
    /// In pieces something else is printed than at once.
    Pieces { lengths: Vec<usize>, in_pieces: Ran },
}

/// The first file for which something wrong is printed.
#[derive(Debug)]
pub struct Difference {
    pub sort: Sort,
    pub file: Vec<u8>,
    pub ran: Ran,
    pub wrong: Wrong,
}

/// How often each outcome was met.
#[derive(Debug, Default)]
pub struct Tally {
    pub found: u64,
    pub none: u64,
    pub complete: u64,
    pub cut: u64,
    /// Listings with conflicts, and with an idle processor.
    pub with_conflicts: u64,
    pub with_idle: u64,
    /// Where the exact load of each load line lies.
    pub loads: Loads,
    /// By the refusal's number.
    pub refused: [u64; CAUSES.len() + 1],
    /// Files beyond what the program reads.
    pub long: u64,
    pub empty: u64,
    pub pieces: u64,
}

pub type Compared = Result<Tally, Box<Difference>>;

/// So many bytes of standard input the program reads.
pub const PROGRAMS_INPUT: usize = 8_192;

/// Runs the program twice on a file of each of these sorts.
pub fn compare(seed: u64, sorts: impl Iterator<Item = Sort>, program: Program) -> Compared {
    let mut random = Random::new(seed);
    let mut tally = Tally::default();
    for sort in sorts {
        let file = sort.file(&mut random);
        let ran = program(&[&file]);
        let checked = check(&file, &ran).and_then(|listing| {
            tally.note(&file, &listing);
            check_pieces(&mut random, program, &file, &ran, &mut tally)
        });
        checked.map_err(|wrong| Box::new(Difference { sort, file, ran, wrong }))?;
    }
    Ok(tally)
}

/// The file again, in some ten pieces of different lengths.
fn check_pieces(
    random: &mut Random,
    program: Program,
    file: &[u8],
    at_once: &Ran,
    tally: &mut Tally,
) -> Result<(), Wrong> {
    let longest = 1 + file.len() / 5;
    let lengths: Vec<usize> = (0..3).map(|_| 1 + random.below(longest)).collect();
    let pieces = pieces(file, &lengths);
    let in_pieces = program(&pieces);
    tally.pieces += pieces.len() as u64;
    if in_pieces == *at_once { Ok(()) } else { Err(Wrong::Pieces { lengths, in_pieces }) }
}

/// Checks what a program left for this file.
pub fn check(file: &[u8], ran: &Ran) -> Result<Listing, Wrong> {
    if ran.status != Some(0) || !ran.said.is_empty() {
        return Err(Wrong::End);
    }
    let listing = str::from_utf8(&ran.printed).ok().and_then(parse).ok_or(Wrong::Form)?;
    match (read(file), &listing) {
        (Err(refusal), Listing::Refused(printed)) if refusal == *printed => Ok(listing),
        (Ok(table), Listing::Searched { .. }) => check_answer(&table, listing),
        (read, _) => Err(Wrong::Refusal { expected: read.err() }),
    }
}

/// Makes the search answer of the listing, checks it, and works out what is printed for it.
fn check_answer(table: &Table, listing: Listing) -> Result<Listing, Wrong> {
    let answer = listing.answer(table).ok_or(Wrong::Form)?;
    let before = [0; PROGRAMS_BUFFER];
    let mut after = before;
    after.get_mut(..answer.len()).ok_or(Wrong::Answer(Fault::Count))?.copy_from_slice(&answer);
    let truth = truth(table);
    Checker::new(truth.as_ref()).check(&before, &after, answer.len()).map_err(Wrong::Answer)?;
    let right = of_answer(table, &answer);
    if listing == right { Ok(listing) } else { Err(Wrong::Facts { right: right.to_string() }) }
}

/// By trying all placements where they are few.
fn truth(table: &Table) -> Box<dyn Truth + '_> {
    match Enumerated::is_quick(table) {
        true => Box::new(Enumerated::of(table, is_late)),
        false => Box::new(Pruned::of(table)),
    }
}

impl Tally {
    /// A file with the listing that was printed for it, and that is right.
    pub fn note(&mut self, file: &[u8], listing: &Listing) {
        self.long += u64::from(file.len() > PROGRAMS_INPUT);
        self.empty += u64::from(file.is_empty());
        match listing {
            Listing::Refused(refusal) => self.refused[refusal.cause as usize] += 1,
            Listing::Searched { found, conflicts, complete } => {
                self.found += u64::from(found.is_some());
                self.none += u64::from(found.is_none());
                self.complete += u64::from(*complete);
                self.cut += u64::from(!complete);
                self.with_conflicts += u64::from(!conflicts.is_empty());
                found.iter().for_each(|found| self.note_loads(file, found));
            }
        }
    }

    /// By the exact loads: one that is printed as 0 need not be that of an idle processor.
    fn note_loads(&mut self, file: &[u8], found: &Found) {
        let table = read(file).expect("a file that was searched");
        let placement = found.placement().expect("processors of the table");
        let placed = Placed { table: &table, placement: &placement };
        let loads: Vec<u64> = (0..table.processors.len()).map(|processor| placed.load(processor)).collect();
        self.with_idle += u64::from(loads.contains(&0));
        loads.into_iter().for_each(|load| self.loads.note(load, u64::from(table.hyperperiod)));
    }

    pub fn files(&self) -> u64 {
        self.found + self.none + self.refused.iter().sum::<u64>()
    }

    /// The outcome that was met least often, among them the refusals that a file can have.
    pub fn least(&self) -> u64 {
        let searched = [self.found, self.none, self.complete, self.cut, self.with_conflicts, self.with_idle];
        let others = [self.long, self.empty, self.loads.least()];
        let refused = self.refused[1..=11].iter().copied();
        searched.into_iter().chain(others).chain(refused).min().unwrap_or(0)
    }
}

#[cfg(test)]
mod tests {
    use super::*;
    use crate::comparison::misreading::{MISREADINGS, Rounding, WRONG_ROUNDINGS, first_by_rounded_loads};
    use crate::comparison::searching::search_pruned;
    use crate::file::encode;
    use crate::generate::files::sorts;
    use crate::generate::lamps::lamps;
    use crate::listing::{Stand, listing};
    use crate::margin::Margin;
    use crate::search::{head, places};

    /// A change by its name.
    type Change<'a, T> = (&'a str, &'a dyn Fn(&mut T));
    type Rewriting<'a> = (&'a str, &'a dyn Fn(&str) -> String);
    type Answer = (Option<Found>, Vec<u32>, bool);

    fn printed(text: String) -> Ran {
        Ran { status: Some(0), printed: text.into_bytes(), said: Vec::new() }
    }

    /// What the program prints for the first bytes of its input.
    fn right(input: &[u8]) -> Listing {
        listing(&input[..input.len().min(PROGRAMS_INPUT)], &search_pruned)
    }

    /// For all sorts but the lamps, whose conflicts are too many for the independent search.
    fn compared(program: Program) -> Compared {
        let quick = sorts().into_iter().filter(|&sort| sort != Sort::Lamps);
        compare(30, quick.cycle().take(1_200), program)
    }

    fn detected(what: &str, wrong: Program) -> Wrong {
        match compared(wrong) {
            Err(difference) => difference.wrong,
            Ok(tally) => panic!("not detected: {what}, {tally:?}"),
        }
    }

    /// The right listing, changed before it is printed.
    fn changed(what: &str, change: &dyn Fn(&mut Listing)) -> Wrong {
        detected(what, &|pieces| {
            let mut listing = right(&pieces.concat());
            change(&mut listing);
            printed(listing.to_string())
        })
    }

    /// The right text, changed.
    fn rewritten(what: &str, change: &dyn Fn(&str) -> String) -> Wrong {
        detected(what, &|pieces| printed(change(&right(&pieces.concat()).to_string())))
    }

    #[test]
    fn the_independent_listings_are_not_suspected_themselves() {
        let tally = compared(&|pieces| printed(right(&pieces.concat()).to_string()))
            .unwrap_or_else(|difference| panic!("{difference:?}"));
        assert!(tally.found >= 100 && tally.none >= 100 && tally.with_conflicts >= 100, "{tally:?}");
        assert!(tally.refused[1..=11].iter().all(|&count| count >= 5), "{tally:?}");
        assert!(tally.loads.least() >= 40, "{tally:?}");
    }

    #[test]
    fn another_end_is_detected() {
        for (status, said) in [(Some(1), ""), (None, ""), (Some(0), "a word")] {
            let ending = |pieces: &[&[u8]]| {
                let ran = printed(right(&pieces.concat()).to_string());
                Ran { status, said: said.as_bytes().to_vec(), ..ran }
            };
            assert_eq!(detected("another end", &ending), Wrong::End);
        }
    }

    #[test]
    fn another_form_is_detected() {
        let forms: [Rewriting; 12] = [
            ("two bytes at a line's end", &|text| text.replace('\n', "\r\n")),
            ("no end of the last line", &|text| text.trim_end().to_string()),
            ("an empty line behind", &|text| format!("{text}\n")),
            ("another word", &|text| text.replace("found", "Found")),
            ("two blanks", &|text| text.replace("refused ", "refused  ")),
            ("a sign more", &|text| text.replace("response ", "response 0")),
            ("no word before the margin", &|text| text.replace(" margin", "")),
            ("a margin with a plus", &|text| text.replace("margin ", "margin +")),
            ("a margin of -0", &|text| text.replace("margin 0\n", "margin -0\n")),
            ("loads without their processors", &|text| text.replace("load 0 ", "load ")),
            ("the listing twice", &|text| text.repeat(2)),
            ("nothing", &|_| String::new()),
        ];
        for (what, change) in forms {
            assert_eq!(rewritten(what, change), Wrong::Form, "{what}");
        }
        let falling = |text: &str| text.replace("conflict 0 1\n", "conflict 1 0\n");
        assert_eq!(rewritten("tasks of a conflict falling", &falling), Wrong::Form);
    }

    #[test]
    fn wrong_refusals_are_detected() {
        let wrong: [Change<Listing>; 3] = [
            ("the place one more", &|listing| {
                if let Listing::Refused(refusal) = listing {
                    refusal.place += 1;
                }
            }),
            ("the next number", &|listing| {
                if let Listing::Refused(refusal) = listing {
                    refusal.cause = CAUSES[refusal.cause as usize];
                }
            }),
            ("none where it is refused", &|listing| {
                if let Listing::Refused(_) = listing {
                    *listing = Listing::Searched { found: None, conflicts: Vec::new(), complete: true };
                }
            }),
        ];
        for (what, change) in wrong {
            assert!(matches!(changed(what, change), Wrong::Refusal { .. }), "{what}");
        }
        let all = detected("all refused", &|_| printed("refused 11 0\n".to_string()));
        assert!(matches!(all, Wrong::Refusal { .. }), "{all:?}");
    }

    /// Changes of the task and load lines.
    fn changed_facts(what: &str, change: &dyn Fn(&mut Found)) -> Wrong {
        changed(what, &|listing| {
            if let Listing::Searched { found: Some(found), .. } = listing {
                change(found);
            }
        })
    }

    #[test]
    fn wrong_facts_are_detected() {
        let last = |found: &mut Found, change: &dyn Fn(&mut Stand)| {
            found.tasks.last_mut().into_iter().for_each(change);
        };
        let wrong: [Change<Found>; 9] = [
            ("a response one more", &|found| last(found, &|stand| stand.response += 1)),
            ("a response of 0", &|found| last(found, &|stand| stand.response = 0)),
            ("a deadline one less", &|found| last(found, &|stand| stand.deadline -= 1)),
            ("a margin one more", &|found| change_margin(found, |margin| margin + 1)),
            ("a margin below zero", &|found| change_margin(found, |margin| -1 - margin)),
            ("the sign of a margin turned round", &|found| change_margin(found, |margin| -margin)),
            ("a margin beyond", &|found| last(found, &|stand| stand.margin = Margin::Beyond)),
            ("a load one more", &|found| found.loads.iter_mut().for_each(|load| *load += 1)),
            ("the loads in reverse", &|found| found.loads.reverse()),
        ];
        for (what, change) in wrong {
            let found = changed_facts(what, change);
            assert!(matches!(found, Wrong::Facts { .. }), "{what}: {found:?}");
        }
    }

    fn change_margin(found: &mut Found, change: fn(i32) -> i32) {
        found.tasks.iter_mut().for_each(|stand| stand.margin = Margin::Known(change(stand.margin.number())));
    }

    #[test]
    fn wrong_roundings_are_detected() {
        for (what, rounding) in WRONG_ROUNDINGS {
            let found = detected(what, &|pieces| {
                let input = pieces.concat();
                let mut listing = right(&input);
                if let (Ok(table), Listing::Searched { found: Some(found), .. }) =
                    (read(&input), &mut listing)
                {
                    round_by(rounding, &table, found);
                }
                printed(listing.to_string())
            });
            assert!(matches!(found, Wrong::Facts { .. }), "{what}: {found:?}");
        }
    }

    fn round_by(rounding: Rounding, table: &Table, found: &mut Found) {
        let placement = found.placement().expect("processors of the table");
        let placed = Placed { table, placement: &placement };
        for (processor, load) in found.loads.iter_mut().enumerate() {
            *load = rounding(placed.load(processor), u64::from(table.hyperperiod));
        }
    }

    /// Where all placements can be tried, the first one is another. The conflicts and the mark are right.
    #[test]
    fn limits_tested_on_rounded_loads_are_detected() {
        let found = detected("rounded loads within the limits", &|pieces| {
            let input = pieces.concat();
            let listing = right(&input);
            let wrong = |table: Table| {
                let mut answer = listing.answer(&table)?;
                let first = first_by_rounded_loads(&table);
                answer[..2 + table.tasks.len()].copy_from_slice(&head(&table, first.as_deref()));
                Some(of_answer(&table, &answer))
            };
            let wrong = read(&input).ok().filter(Enumerated::is_quick).and_then(wrong);
            printed(wrong.unwrap_or(listing).to_string())
        });
        assert_eq!(found, Wrong::Answer(Fault::Head));
    }

    /// Changes of the placement, the conflicts and the mark.
    fn changed_answer(what: &str, change: &dyn Fn(&mut Answer)) -> Wrong {
        changed(what, &|listing| {
            if let Listing::Searched { found, conflicts, complete } = listing {
                let mut answer = (found.take(), std::mem::take(conflicts), *complete);
                change(&mut answer);
                (*found, *conflicts, *complete) = answer;
            }
        })
    }

    #[test]
    fn wrong_answers_are_detected() {
        let wrong: [(Fault, Change<Answer>); 7] = [
            (Fault::Head, ("none for all", &|(found, ..)| *found = None)),
            (
                Fault::Head,
                ("the last task elsewhere", &|(found, ..)| {
                    found.iter_mut().for_each(|found| found.tasks.last_mut().expect("a task").processor ^= 1);
                }),
            ),
            (
                Fault::Head,
                ("an unknown processor", &|(found, ..)| {
                    found.iter_mut().for_each(|found| found.tasks[0].processor = 8);
                }),
            ),
            (Fault::Mark, ("called cut", &|(.., complete)| *complete = false)),
            (
                Fault::Mark,
                ("a conflict left out", &|(_, conflicts, _)| conflicts.truncate(conflicts.len().max(1) - 1)),
            ),
            (
                Fault::Repeated,
                ("a conflict twice", &|(_, conflicts, _)| conflicts.extend(conflicts.first().copied())),
            ),
            (
                Fault::NotMinimal,
                ("a task too few", &|(_, conflicts, _)| {
                    conflicts.iter_mut().for_each(|set| *set &= *set - 1);
                }),
            ),
        ];
        for (fault, (what, change)) in wrong {
            assert_eq!(changed_answer(what, change), Wrong::Answer(fault), "{what}");
        }
    }

    /// Sixteen lamps: as many sets of eight as there are places, all with the first lamp, so that no two
    /// rule out the same placements.
    #[test]
    fn wrong_lists_that_are_cut_are_detected() {
        let mut random = Random::new(31);
        let table = std::iter::repeat_with(|| lamps(&mut random))
            .find(|table| table.tasks.len() == 16)
            .expect("sixteen lamps");
        let eights = (0..1u32 << 16).filter(|set| set & 1 == 1 && set.count_ones() == 8);
        let room = places(&table, PROGRAMS_BUFFER);
        let conflicts: Vec<u32> = eights.take(room + 1).collect();
        let checked = |count: usize, complete: bool| {
            let conflicts = conflicts[..count].to_vec();
            let text = Listing::Searched { found: None, conflicts, complete }.to_string();
            check(&encode(&table), &printed(text)).map(|_| ())
        };
        assert_eq!(checked(room, false), Ok(()));
        assert_eq!(checked(room, true), Err(Wrong::Answer(Fault::Mark)));
        assert_eq!(checked(room - 1, false), Err(Wrong::Answer(Fault::CutWithPlaces)));
        assert_eq!(checked(room + 1, false), Err(Wrong::Answer(Fault::Count)));
    }

    #[test]
    fn misread_input_is_detected() {
        for (what, misread) in MISREADINGS {
            detected(what, &|pieces| {
                let input = pieces.concat();
                printed(match read(&input) {
                    Ok(mut table) => {
                        misread(&mut table);
                        right(&encode(&table)).to_string()
                    }
                    Err(_) => right(&input).to_string(),
                })
            });
        }
        let first = detected("the first piece alone", &|pieces| printed(right(pieces[0]).to_string()));
        assert!(matches!(first, Wrong::Pieces { .. }), "{first:?}");
        let short = detected("no more than a table may have", &|pieces| {
            let input = pieces.concat();
            printed(right(&input[..input.len().min(1_302)]).to_string())
        });
        assert!(matches!(short, Wrong::Refusal { .. }), "{short:?}");
    }
}
