//! Compares a way of judging that writes the whole judgement into a lent buffer with the independent one: what
//! comes back, and every place of buffers that are too short, just long enough and longer.

use super::judging::{self, Difference};
use crate::judge::{judge, write};
use crate::reader::read;
use std::cell::RefCell;
use std::collections::BTreeMap;

/// Judges a placement of a file; the judgement is written into the buffer.
pub type JudgeTasks<'a> = &'a dyn Fn(&[u8], &[u8], &mut [i32]) -> u64;

/// What came back, and the whole buffer after the call.
#[derive(Clone, Debug, PartialEq, Eq)]
pub struct Answer {
    pub code: u64,
    pub buffer: Vec<i32>,
}

/// Of the answers with one number: how many there were, in how many the place or the number concerned was not
/// 0, beside how many a task was late, or had a response, and beside how many there was a margin of each sort.
#[derive(Debug, Default)]
pub struct Seen {
    pub answers: u64,
    pub not_at_0: u64,
    pub with_late: u64,
    pub with_response: u64,
    pub with_margin: Margins,
}

/// How often a margin of each sort was met.
#[derive(Clone, Debug, Default, PartialEq, Eq)]
pub struct Margins {
    pub below: u64,
    pub zero: u64,
    pub above: u64,
    pub beyond: u64,
}

impl Margins {
    /// Notes one of these margins for each sort that is among them.
    pub fn note(&mut self, margins: &[i32]) {
        let any = |is_so: &dyn Fn(i32) -> bool| u64::from(margins.iter().any(|&margin| is_so(margin)));
        self.below += any(&|margin| margin < 0 && margin != i32::MIN);
        self.zero += any(&|margin| margin == 0);
        self.above += any(&|margin| margin > 0);
        self.beyond += any(&|margin| margin == i32::MIN);
    }

    pub fn least(&self) -> u64 {
        self.below.min(self.zero).min(self.above).min(self.beyond)
    }
}

/// By the number: a refusal's, 0 or a rule's.
pub type Tally = BTreeMap<u64, Seen>;

/// Compares some 1,300 placements in a round, each with buffers of every length that matters.
pub fn compare(seed: u64, rounds: usize, candidate: JudgeTasks) -> Result<Tally, Difference<Vec<Answer>>> {
    let tally = RefCell::new(Tally::new());
    let expected = |file: &[u8], placement: &[u8]| {
        let judged = judge(file, placement);
        let answers = answers(&|_, placement, out| write(&judged, placement.len(), out), file, placement);
        answers.iter().for_each(|answer| note(&mut tally.borrow_mut(), answer));
        answers
    };
    judging::compare(seed, rounds, &expected, &|file, placement| answers(candidate, file, placement))?;
    Ok(tally.into_inner())
}

/// Buffers without a place, with one, with as many as without margins, and with one too few, as many as are
/// needed, one more, and many more.
pub fn answers(judge: JudgeTasks, file: &[u8], placement: &[u8]) -> Vec<Answer> {
    let tasks = read(file).map_or(placement.len(), |table| table.tasks.len());
    let needed = 2 * tasks + 2;
    let lengths = [0, 1, tasks + 2, needed - 1, needed, needed + 1, needed + 40];
    lengths.map(|length| answer(judge, file, placement, length)).to_vec()
}

pub(super) fn answer(judge: JudgeTasks, file: &[u8], placement: &[u8], length: usize) -> Answer {
    let mut buffer = untouched(length);
    let code = judge(file, placement, &mut buffer);
    Answer { code, buffer }
}

/// A buffer that no call has written into: no number of a judgement is as large.
pub fn untouched(length: usize) -> Vec<i32> {
    (0..length).map(|place| 2_000_000_000 + place as i32).collect()
}

fn note(tally: &mut Tally, answer: &Answer) {
    let (refusal, place) = (answer.code >> 32, answer.code as u32);
    let written = if refusal == 0 { &answer.buffer[..place as usize] } else { &[] };
    let (number, concerned) = match written {
        [number, concerned, ..] => (*number as u64, *concerned as u32),
        _ => (refusal, place),
    };
    let (responses, margins) = parts(written);
    let seen = tally.entry(number).or_default();
    seen.answers += 1;
    seen.not_at_0 += u64::from(concerned != 0);
    seen.with_late += u64::from(responses.contains(&0));
    seen.with_response += u64::from(responses.iter().any(|&response| response != 0));
    seen.with_margin.note(margins);
}

/// The responses and the margins of what is written; none of nothing.
fn parts(written: &[i32]) -> (&[i32], &[i32]) {
    let tasks = written.get(2..).unwrap_or_default();
    tasks.split_at(tasks.len() / 2)
}

#[cfg(test)]
mod tests {
    use super::*;
    use crate::comparison::judging::NUMBERS;
    use crate::comparison::misreading::{WRONG_MARGINS, misjudged};
    use crate::examples;
    use crate::judge::judge_tasks;
    use crate::model::{Cause, Refusal};

    const TOO_SHORT: u64 = 12 << 32;

    fn detected(what: &str, wrong: JudgeTasks) {
        assert!(compare(14, 2, wrong).is_err(), "not detected: {what}");
    }

    /// The right answer, changed: the change gets the buffer and the count of places written.
    fn detected_change(what: &str, change: &dyn Fn(&mut [i32], usize)) {
        detected(what, &|file, placement, out| {
            let code = judge_tasks(file, placement, out);
            if code >> 32 == 0 {
                change(out, code as usize);
            }
            code
        });
    }

    #[test]
    fn the_judge_agrees_with_every_example() {
        for example in examples::judging::all() {
            let (code, written) = example.written();
            let found = answer(&judge_tasks, &example.file(), &example.placement, 60);
            assert_eq!(found.code, code, "{}", example.what);
            assert_eq!(found.buffer[..written.len()], written, "{}", example.what);
            assert_eq!(found.buffer[written.len()..], untouched(60)[written.len()..], "{}", example.what);
        }
    }

    #[test]
    fn the_judge_is_not_suspected_itself() {
        let tally = compare(14, 2, &judge_tasks).expect("equal to itself");
        for number in NUMBERS.into_iter().chain([12]) {
            assert!(
                tally.get(&number.into()).is_some_and(|seen| seen.answers >= 10),
                "{number} in {tally:?}"
            );
        }
        for number in 101..=107 {
            assert!(tally[&number].with_margin.least() >= 10, "{number} in {tally:?}");
        }
        let Margins { below, zero, above, beyond } = tally[&0].with_margin;
        assert!(below == 0 && beyond == 0 && zero >= 10 && above >= 10, "{tally:?}");
    }

    #[test]
    fn wrong_numbers_are_detected() {
        detected_change("number concerned always 0", &|out, _| out[1] = 0);
        detected_change("the number concerned first", &|out, _| out.swap(0, 1));
        detected_change("no responses beside a broken rule", &|out, end| {
            if out[0] != 0 {
                out[2..margins_at(end)].fill(0);
            }
        });
        detected_change("responses beside a broken placement rule", &|out, end| {
            if (101..107).contains(&out[0]) {
                out[2..margins_at(end)].iter_mut().for_each(|response| *response = (*response).max(1));
            }
        });
        detected_change("late tasks marked by -1", &|out, end| {
            let late = out[2..margins_at(end)].iter_mut().filter(|response| **response == 0);
            late.for_each(|response| *response = -1);
        });
        detected_change("the last margin not written", &|out, end| out[end - 1] = untouched(end)[end - 1]);
        detected_change("no margins written", &|out, end| {
            let at = margins_at(end);
            out[at..end].copy_from_slice(&untouched(end)[at..]);
        });
        detected_change("places behind cleared", &|out, end| out[end..].fill(0));
        for (what, count) in [
            ("the count of tasks", (|code| code / 2 - 1) as fn(u64) -> u64),
            ("the count without margins", |code| code / 2 + 1),
        ] {
            detected(what, &|file, placement, out| {
                let code = judge_tasks(file, placement, out);
                if code >> 32 == 0 { count(code) } else { code }
            });
        }
    }

    #[test]
    fn wrong_margins_are_detected() {
        for (what, change) in WRONG_MARGINS {
            detected(what, &|file, placement, out| misjudged(change, file, placement, out));
        }
    }

    /// Where the margins begin if so many places are written.
    fn margins_at(end: usize) -> usize {
        end / 2 + 1
    }

    /// Whether a placement of this file asks for more places than these.
    fn too_short(file: &[u8], out: &[i32]) -> bool {
        read(file).is_ok_and(|table| out.len() < 2 * table.tasks.len() + 2)
    }

    #[test]
    fn wrong_refusals_are_detected() {
        for cause in [Cause::PlacementLength, Cause::UnknownProcessor] {
            detected("12 before it", &|file, placement, out| match judge_tasks(file, placement, out) {
                code if code >> 32 == cause as u64 && too_short(file, out) => TOO_SHORT,
                code => code,
            });
        }
        detected("12 before the file", &|file, placement, out| match out.len() {
            0..3 => TOO_SHORT,
            _ => judge_tasks(file, placement, out),
        });
        detected("the last unknown processor", &|file, placement, out| {
            let code = judge_tasks(file, placement, out);
            let last = Refusal { cause: Cause::UnknownProcessor, place: placement.len().max(1) - 1 };
            if code >> 32 == 14 { last.code() } else { code }
        });
    }

    #[test]
    fn wrong_lengths_and_places_are_detected() {
        detected("a place more asked for", &|file, placement, out| {
            let is_short = out.is_empty() || too_short(file, &out[1..]);
            let before = out.to_vec();
            match judge_tasks(file, placement, out) {
                code if code >> 32 == 0 && is_short => {
                    out.copy_from_slice(&before);
                    TOO_SHORT
                }
                code => code,
            }
        });
        detected("as many places as without margins asked for", &|file, placement, out| {
            let mut longer = [&out[..], &[0; 24]].concat();
            match judge_tasks(file, placement, out) {
                TOO_SHORT if out.len() >= placement.len() + 2 => {
                    let code = judge_tasks(file, placement, &mut longer);
                    out.copy_from_slice(&longer[..out.len()]);
                    code
                }
                code => code,
            }
        });
        detected("a place less asked for", &|file, placement, out| {
            let mut longer = [&out[..], &[0]].concat();
            let code = judge_tasks(file, placement, &mut longer);
            out.copy_from_slice(&longer[..out.len()]);
            code
        });
        detected("the number written beside a refusal", &|file, placement, out| {
            let code = judge_tasks(file, placement, out);
            if code >> 32 != 0 && !out.is_empty() {
                out[0] = (code >> 32) as i32;
            }
            code
        });
    }
}
