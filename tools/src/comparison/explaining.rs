//! Compares a way to explain listings to people with what it should say, on many generated files.

use super::explained::{Wrong, check};
use super::searching::Search;
use crate::generate::files::Sort;
use crate::generate::names::own_names;
use crate::listing::{Listing, listing};
use crate::model::{CAUSES_OF_A_FILE, Table};
use crate::random::Random;
use crate::reader::read;
use crate::text::Names;

/// A way to explain the listing of a file.
pub type Explain<'a> = &'a dyn Fn(&[u8], Option<Names>, &Listing) -> Option<String>;

/// The first listing that is explained wrongly.
#[derive(Debug)]
pub struct Difference {
    pub file: Vec<u8>,
    pub listing: String,
    pub explained: Option<String>,
    pub wrong: Wrong,
}

/// How often each outcome was met.
#[derive(Debug, Default)]
pub struct Tally {
    /// None or found, each cut or complete, each with no set, one or more.
    pub sentences: [u64; 12],
    /// By the refusal's number.
    pub refused: [u64; CAUSES_OF_A_FILE.len() + 1],
    pub with_own_names: u64,
}

impl Tally {
    fn note(&mut self, listing: &Listing, has_own_names: bool) {
        self.with_own_names += u64::from(has_own_names);
        match listing {
            Listing::Refused(refusal) => self.refused[refusal.cause as usize] += 1,
            Listing::Searched { found, conflicts, complete } => {
                let sort = 2 * usize::from(found.is_some()) + usize::from(*complete);
                self.sentences[3 * sort + conflicts.len().min(2)] += 1;
            }
        }
    }

    pub fn listings(&self) -> u64 {
        self.sentences.iter().chain(&self.refused).sum()
    }

    /// The sentence or refusal that was met least often.
    pub fn least(&self) -> u64 {
        let counts = self.sentences.iter().chain(&self.refused[1..]).chain([&self.with_own_names]);
        counts.copied().min().unwrap_or(0)
    }
}

/// Explains the listing of a file of each of these sorts, as this search answers it or varied, with names of its
/// own or without.
pub fn compare(
    seed: u64,
    sorts: impl Iterator<Item = Sort>,
    search: Search,
    explain: Explain,
) -> Result<Tally, Box<Difference>> {
    let mut random = Random::new(seed);
    let mut tally = Tally::default();
    for sort in sorts {
        let file = sort.file(&mut random);
        let table = read(&file).ok();
        let listing = varied(&mut random, table.as_ref(), listing(&file, search));
        let names = table.filter(|_| random.once_in(2)).map(|table| own_names(&mut random, &table));
        let explained = explain(&file, names.clone(), &listing);
        let text = explained.as_deref().ok_or(Wrong::Form);
        let checked = text.and_then(|text| check(&file, names.as_ref(), &listing.to_string(), text));
        tally.note(&listing, names.is_some());
        checked
            .map_err(|wrong| Box::new(Difference { file, listing: listing.to_string(), explained, wrong }))?;
    }
    Ok(tally)
}

/// The listing, or half the time one with any few sets and any mark, so that every sentence occurs: whether it is
/// true is no matter here.
fn varied(random: &mut Random, table: Option<&Table>, mut listing: Listing) -> Listing {
    if let (Some(table), Listing::Searched { conflicts, complete, .. }) = (table, &mut listing)
        && random.once_in(2)
    {
        let all = (1 << table.tasks.len()) - 1;
        *conflicts = (0..random.below(4)).map(|_| random.within(1, all)).collect();
        *complete = random.once_in(2);
    }
    listing
}

#[cfg(test)]
mod tests {
    use super::*;
    use crate::comparison::searching::search_pruned;
    use crate::explain::explain;
    use crate::file::encode;
    use crate::generate::files::sorts;
    use crate::listing::{Found, Stand};
    use crate::margin::Margin;

    /// For all sorts but the lamps, whose conflicts are too many for the independent search.
    fn compared(explain: Explain) -> Result<Tally, Box<Difference>> {
        let quick = sorts().into_iter().filter(|&sort| sort != Sort::Lamps);
        compare(32, quick.cycle().take(1_000), &search_pruned, explain)
    }

    fn detected(what: &str, wrong: Explain) -> Wrong {
        match compared(wrong) {
            Err(difference) => difference.wrong,
            Ok(tally) => panic!("not detected: {what}, {tally:?}"),
        }
    }

    /// The right text, changed.
    fn rewritten(what: &str, change: &dyn Fn(&str) -> String) -> Wrong {
        detected(what, &|file, names, listing| Some(change(&explain(file, names, listing)?)))
    }

    /// The right text with one part of it replaced, wherever it stands.
    fn replaced(wrong: Wrong, cases: &[(&str, &str)]) {
        for (part, instead) in cases {
            let found = rewritten(part, &|text| text.replace(part, instead));
            assert_eq!(found, wrong, "{instead:?} for {part:?}");
        }
    }

    #[test]
    fn the_explanations_are_not_suspected_themselves() {
        let tally = compared(&explain).unwrap_or_else(|difference| panic!("{difference:?}"));
        assert!(tally.least() >= 5 && tally.listings() == 1_000, "{tally:?}");
    }

    #[test]
    fn wrong_sentences_are_detected() {
        replaced(
            Wrong::Sentence,
            &[
                ("No placement exists:", "No placement exists;"),
                ("has that set on", "has such a set on"),
                ("has such a set on", "has that set on"),
                ("each of the 2 sets", "each of the 3 sets"),
                ("each of the 2 sets listed", "the set listed"),
                ("no set is listed, but", "the set listed cannot share a processor, but"),
                ("and together they rule out", "and this rules out"),
                ("some earlier one keeps", "every earlier one keeps"),
                (".\n", ". And so on.\n"),
                ("number 7", "number 8"),
                ("at byte 14, task 0", "at byte 15, task 0"),
                ("of an earlier task", "of a later task"),
                ("task 1 (the first is 0)", "task 2 (the first is 0)"),
                ("which is no record", "network 0 (the first is 0)"),
                ("bytes: no network", "bytes: no task"),
            ],
        );
    }

    #[test]
    fn another_form_is_detected() {
        assert_eq!(detected("nothing", &|_, _, _| None), Wrong::Form);
        rewritten("an empty text", &|_| String::new());
        rewritten("no end of the last line", &|text| text.trim_end().to_string());
        rewritten("an empty line behind", &|text| format!("{text}\n"));
        rewritten("an empty line more", &|text| text.replace("\n\ncannot", "\n\n\ncannot"));
        rewritten("two bytes at a line's end", &|text| text.replace('\n', "\r\n"));
        replaced(Wrong::Form, &[("processor:\n  ", "processor:\n"), ("cannot share a processor:\n", "")]);
        replaced(Wrong::Name, &[(", t", " t"), ("\n  t", "\n  T")]);
        replaced(
            Wrong::Columns,
            &[
                ("  response", "   response"),
                ("       1  ", "1         "),
                ("limit\n", "limit \n"),
                ("limit\n", "limit  ||\n"),
                ("response  deadline", "deadline  response"),
                ("deadline  margin\n", "deadline\n"),
                ("deadline  margin\n", "deadline  Margin\n"),
                ("     0\n", "0     \n"),
                ("     0\n", "0\n"),
                ("  |", " |"),
            ],
        );
    }

    #[test]
    fn wrong_bars_are_detected() {
        replaced(Wrong::Bar, &[("# ", "##"), ("## ", "#  "), ("|\n", " |\n"), ("#|\n", " |\n")]);
    }

    /// Of the placement, the sets and the mark.
    type Change<'a> = &'a dyn Fn(&mut Option<Found>, &mut Vec<u32>, &mut bool);

    /// The right text of another listing of the same file, if there is one.
    fn misread(what: &str, change: Change) {
        let found = detected(what, &|file, names, listing| {
            let mut other = listing.clone();
            if let Listing::Searched { found, conflicts, complete } = &mut other {
                change(found, conflicts, complete);
            }
            explain(file, names.clone(), &other).or_else(|| explain(file, names, listing))
        });
        assert!(matches!(found, Wrong::Facts { .. }), "{what}: {found:?}");
    }

    #[test]
    fn wrong_facts_are_detected() {
        let last = |found: &mut Option<Found>, change: &dyn Fn(&mut Stand)| {
            found.iter_mut().flat_map(|found| found.tasks.last_mut()).for_each(change);
        };
        misread("another processor", &|found, _, _| last(found, &|stand| stand.processor ^= 1));
        misread("a response one more", &|found, _, _| {
            last(found, &|stand| {
                stand.response += 1;
                stand.margin = Margin::Known(stand.margin.number() - 1);
            });
        });
        misread("a late task", &|found, _, _| {
            last(found, &|stand| (stand.response, stand.margin) = (0, Margin::Beyond));
        });
        misread("loads in reverse", &|found, _, _| found.iter_mut().for_each(|found| found.loads.reverse()));
        misread("no placement", &|found, _, _| *found = None);
        misread("the sets in reverse", &|_, sets, _| sets.reverse());
        misread("a set left out", &|_, sets, _| sets.truncate(sets.len().max(1) - 1));
        misread("a task left out", &|_, sets, _| sets.iter_mut().for_each(|set| *set &= *set - 1));
        misread("the other mark", &|_, _, complete| *complete = !*complete);
        let margin = rewritten("a margin one more", &|text| text.replace("     0\n", "     1\n"));
        assert!(matches!(margin, Wrong::Facts { .. }), "{margin:?}");
        let falling = rewritten("tasks of a set falling", &|text| text.replace("  t0, t1\n", "  t1, t0\n"));
        assert!(matches!(falling, Wrong::Facts { .. }), "{falling:?}");
    }

    /// The right text with the names or the numbers of another table.
    #[test]
    fn wrong_names_and_limits_are_detected() {
        let made_up = detected("no names", &|file, _, listing| explain(file, None, listing));
        assert_eq!(made_up, Wrong::Name);
        for (what, change) in [
            ("tasks in reverse", (|names| names.tasks.reverse()) as fn(&mut Names)),
            ("processors in reverse", |names| names.processors.reverse()),
        ] {
            let found = detected(what, &|file, mut names, listing| {
                names.iter_mut().for_each(change);
                explain(file, names, listing)
            });
            assert!(matches!(found, Wrong::Name | Wrong::Facts { .. }), "{what}: {found:?}");
        }
        let limits = detected("other limits", &|file, names, listing| match read(file) {
            Ok(mut table) => {
                table.processors.iter_mut().for_each(|processor| processor.limit = 1001 - processor.limit);
                explain(&encode(&table), names, listing)
            }
            Err(_) => explain(file, names, listing),
        });
        assert_eq!(limits, Wrong::Limit);
    }
}
