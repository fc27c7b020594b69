//! Compares a way of reading files with the independent reader on many generated inputs.

use crate::file::{File, encode, records};
use crate::generate::faulty::all_meetings;
use crate::generate::tables::{Shape, table};
use crate::model::{Message, Processor, Table, Task};
use crate::random::Random;
use crate::reader::read_code;

/// The first input that is read differently; codes as the C function returns them.
#[derive(Debug)]
pub struct Difference {
    pub file: Vec<u8>,
    pub expected: u64,
    pub found: u64,
}

/// How many inputs ended in each number, 0 to 11.
pub type Tally = [u64; 12];

type Checked = Result<(), Difference>;

struct Comparison<'a> {
    candidate: &'a dyn Fn(&[u8]) -> u64,
    random: Random,
    tally: Tally,
}

/// Runs through some 25,000 generated inputs in a round, and 330,000 changes of a full file.
pub fn compare(seed: u64, rounds: usize, candidate: &dyn Fn(&[u8]) -> u64) -> Result<Tally, Difference> {
    let mut comparison = Comparison { candidate, random: Random::new(seed), tally: [0; 12] };
    for _ in 0..rounds {
        let shape = Shape::random(&mut comparison.random);
        comparison.truncations(shape)?;
        comparison.whole_files(500)?;
        comparison.meetings(10)?;
        comparison.rearranged_records(500)?;
        comparison.invented_records(2_000)?;
        comparison.random_bytes(500)?;
        comparison.long_files(20)?;
        comparison.some_bytes(shape)?;
        comparison.every_byte(SMALL)?;
    }
    comparison.truncations(Shape::FULL)?;
    comparison.some_bytes(Shape::FULL)?;
    comparison.every_byte(Shape::FULL)?;
    Ok(comparison.tally)
}

/// One record of each kind and a second task: 6 + 8 + 44 + 6 + 6 + 8 = 78 bytes.
const SMALL: Shape = Shape { processors: 1, tasks: 2, co_resident: 1, exclusive: 1, messages: 1, periods: 1 };

/// Values of fields at the edges of the ranges, and small ones that are often equal.
const EDGES: [u32; 14] = [0, 1, 2, 3, 4, 6, 12, 999, 1000, 1001, 1_000_000, 1_000_001, 1 << 24, u32::MAX];

impl Comparison<'_> {
    fn check(&mut self, file: &[u8]) -> Checked {
        let expected = read_code(file);
        let found = (self.candidate)(file);
        if expected != found {
            return Err(Difference { file: file.to_vec(), expected, found });
        }
        self.tally[(expected >> 32) as usize] += 1;
        Ok(())
    }

    fn random_table(&mut self) -> Table {
        let shape = if self.random.once_in(20) { Shape::FULL } else { Shape::random(&mut self.random) };
        table(&mut self.random, shape)
    }

    fn some_random_bytes(&mut self, length: usize) -> Vec<u8> {
        (0..length).map(|_| self.random.draw() as u8).collect()
    }

    /// Files that are read, also with bytes after their end.
    fn whole_files(&mut self, count: usize) -> Checked {
        for _ in 0..count {
            let mut file = encode(&self.random_table());
            self.check(&file)?;
            let length = 1 + self.random.below(30);
            file.extend(self.some_random_bytes(length));
            self.check(&file)?;
        }
        Ok(())
    }

    fn meetings(&mut self, repeats: usize) -> Checked {
        for meeting in all_meetings() {
            for _ in 0..repeats {
                let (file, _) = meeting.file(&mut self.random);
                self.check(&file)?;
            }
        }
        Ok(())
    }

    fn truncations(&mut self, shape: Shape) -> Checked {
        let file = encode(&table(&mut self.random, shape));
        for length in 0..file.len() {
            self.check(&file[..length])?;
        }
        Ok(())
    }

    /// Every other value at every place of one file.
    fn every_byte(&mut self, shape: Shape) -> Checked {
        let mut file = encode(&table(&mut self.random, shape));
        for place in 0..file.len() {
            let original = file[place];
            for change in 1..=255 {
                file[place] = original.wrapping_add(change);
                self.check(&file)?;
            }
            file[place] = original;
        }
        Ok(())
    }

    /// At every place of one file another value, alone and with a second change elsewhere.
    fn some_bytes(&mut self, shape: Shape) -> Checked {
        let original = encode(&table(&mut self.random, shape));
        for place in 0..original.len() {
            let mut file = original.clone();
            file[place] = self.random.draw() as u8;
            self.check(&file)?;
            let second = self.random.below(file.len());
            file[second] = self.random.draw() as u8;
            self.check(&file)?;
        }
        Ok(())
    }

    /// Records repeated, dropped, swapped, and taken from another table.
    fn rearranged_records(&mut self, count: usize) -> Checked {
        for _ in 0..count {
            let mut own = records(&self.random_table());
            let strange = records(&self.random_table());
            for _ in 0..1 + self.random.below(2) {
                let (one, other) = (self.random.below(own.len()), self.random.below(own.len()));
                match self.random.below(4) {
                    0 => own.insert(other, own[one].clone()),
                    1 => drop(own.remove(one)),
                    2 => own.swap(one, other),
                    _ => own[one] = strange[self.random.below(strange.len())].clone(),
                }
            }
            self.check(&own.concat())?;
        }
        Ok(())
    }

    /// Records mostly in order, with fields at the edges of their ranges.
    fn invented_records(&mut self, count: usize) -> Checked {
        for _ in 0..count {
            let mut kind = 0;
            let mut file = File::new();
            for _ in 0..self.random.below(12) {
                kind = (kind + self.random.below(2)) % 6;
                file = self.invented_record(kind, file);
            }
            self.check(&file.bytes)?;
        }
        Ok(())
    }

    fn invented_record(&mut self, kind: usize, file: File) -> File {
        let random = &mut self.random;
        match kind {
            0 => file.network(random.pick(&EDGES)),
            1 => file.processor(Processor {
                memory: random.pick(&EDGES),
                limit: random.pick(&[0, 1, 1000, 1000, 1001]),
            }),
            2 => file.task(invented_task(random)),
            3 => file.co_resident(random.pick(&EDGES)),
            4 => file.exclusive(random.pick(&EDGES)),
            _ => file.message(Message {
                sender: random.below(3) as u8,
                receiver: random.below(3) as u8,
                amount: random.pick(&EDGES),
            }),
        }
    }

    fn random_bytes(&mut self, count: usize) -> Checked {
        for _ in 0..count {
            let length = self.random.below(60);
            let mut file = self.some_random_bytes(length);
            self.check(&file)?;
            file.splice(0..0, *b"NT");
            self.check(&file)?;
        }
        Ok(())
    }

    /// Files of up to 20,000 bytes: random ones, whole ones with more behind, records without end.
    fn long_files(&mut self, count: usize) -> Checked {
        for _ in 0..count {
            let length = self.random.below(20_001);
            let mut file = match self.random.below(3) {
                0 => Vec::new(),
                _ => encode(&self.random_table()),
            };
            let more = match self.random.below(3) {
                0 => self.some_random_bytes(length),
                1 => file.clone(),
                _ => b"MS\0\x01\x01\0\0\0".to_vec(),
            };
            file.extend(more.iter().cycle().take(length.saturating_sub(file.len())));
            self.check(&file)?;
        }
        Ok(())
    }
}

/// Times mostly in their order, and few priorities and residences, so that all causes meet.
fn invented_task(random: &mut Random) -> Task {
    let mut times = [random.pick(&EDGES), random.pick(&EDGES), random.pick(&EDGES)];
    if !random.once_in(8) {
        times.sort_unstable();
    }
    Task {
        execution: times[0],
        deadline: times[1],
        period: times[2],
        memory: random.pick(&EDGES),
        priority: random.below(8) as u16,
        residence: random.pick(&[0, 1, 1, 1, 2, 3, 1 << 8, u16::MAX]),
    }
}

#[cfg(test)]
mod tests {
    use super::*;
    use crate::model::{Cause, Kind, Refusal};
    use crate::reader::read;

    /// The comparison must notice this wrong way of reading.
    fn detected(what: &str, wrong: &dyn Fn(&[u8]) -> u64) {
        assert!(compare(5, 2, wrong).is_err(), "not detected: {what}");
    }

    /// Reads the file after every record was changed, as a reader does that overlooks what the
    /// change removes.
    fn after_change(file: &[u8], change: &dyn Fn(&mut [u8], usize)) -> u64 {
        let mut changed = file.to_vec();
        let mut place = 0;
        while place + 2 <= changed.len() {
            change(&mut changed[place..], place);
            let Some(kind) = Kind::of_mark(&[changed[place], changed[place + 1]]) else { break };
            place += kind.length();
        }
        read_code(&changed)
    }

    fn detected_change(what: &str, change: &dyn Fn(&mut [u8], usize)) {
        detected(what, &|file| after_change(file, change));
    }

    /// Replaces a field of whole records of one kind.
    fn detected_field(
        what: &str,
        mark: &[u8; 2],
        field: std::ops::Range<usize>,
        replace: &dyn Fn(u32) -> u32,
    ) {
        detected_change(what, &|rest, _| {
            if rest.starts_with(mark) && rest.len() >= field.end {
                let mut word = [0; 4];
                word[..field.len()].copy_from_slice(&rest[field.clone()]);
                let replaced = replace(u32::from_le_bytes(word)).to_le_bytes();
                rest[field.clone()].copy_from_slice(&replaced[..field.len()]);
            }
        });
    }

    fn detected_exchange(what: &str, found: Cause, answered: Cause, also: &dyn Fn(&[u8], usize) -> bool) {
        detected(what, &|file| match read(file) {
            Err(Refusal { cause, place }) if cause == found && also(file, place) => {
                Refusal { cause: answered, place }.code()
            }
            _ => read_code(file),
        });
    }

    #[test]
    fn the_reader_is_not_suspected_itself() {
        let tally = compare(5, 2, &read_code).expect("equal to itself");
        assert!(tally.iter().all(|&count| count > 20), "{tally:?}");
    }

    #[test]
    fn refusing_all_or_nothing_is_detected() {
        detected("refuses all", &|_| 1 << 32);
        detected("reads all", &|_| 0);
        detected("reads without NT", &|file| match read(file) {
            Err(Refusal { cause: Cause::KindMissing, .. }) if file.starts_with(b"PR") => 0,
            _ => read_code(file),
        });
    }

    #[test]
    fn a_wrong_place_is_detected() {
        for cause in 1..=11 {
            detected("place two further", &|file| {
                let code = read_code(file);
                if code >> 32 == cause { code + 2 } else { code }
            });
        }
    }

    #[test]
    fn limits_off_by_one_are_detected() {
        let lax = |limit: u32| move |value: u32| if value == limit + 1 { limit } else { value };
        let strict = |limit: u32| move |value: u32| if value == limit { limit + 1 } else { value };
        detected_field("limit 1001 read", b"PR", 6..8, &lax(1000));
        detected_field("limit 1000 refused", b"PR", 6..8, &strict(1000));
        detected_field("limit 0 read", b"PR", 6..8, &|limit| limit.max(1));
        detected_field("amount 1,000,001 read", b"MS", 4..8, &lax(1_000_000));
        detected_field("amount 1,000,000 refused", b"MS", 4..8, &strict(1_000_000));
        detected_field("period 1,000,001 read", b"TK", 6..10, &lax(1_000_000));
        detected_field("period 1,000,000 refused", b"TK", 6..10, &strict(1_000_000));
        detected_field("C 0 read", b"TK", 2..6, &|execution| execution.max(1));
        detected("H 999,999,999 refused", &|file| match read(file) {
            Ok(table) if table.hyperperiod == 999_999_999 => 10 << 32,
            _ => read_code(file),
        });
    }

    #[test]
    fn overlooked_fields_are_detected() {
        detected_change("C may exceed D", &|rest, _| {
            if rest.starts_with(b"TK") && rest.len() >= 22 && rest[10..14] != [0; 4] && rest[2..6] != [0; 4] {
                rest[2..6].copy_from_slice(&[1, 0, 0, 0]);
            }
        });
        detected_change("priority ignored", &|rest, place| {
            if rest.starts_with(b"TK") && rest.len() >= 22 {
                rest[18..20].copy_from_slice(&(place as u16).to_le_bytes());
            }
        });
        detected_change("one byte of the mark compared", &|rest, _| {
            if let Some(mark) =
                [b"NT", b"PR", b"TK", b"CO", b"EX", b"MS"].iter().find(|mark| mark[0] == rest[0])
            {
                rest[1] = mark[1];
            }
        });
        detected_field("residence bits 8 to 15 ignored", b"TK", 20..22, &|residence| residence & 0xFF);
        detected_field("group bits 24 to 31 ignored", b"EX", 2..6, &|mask| mask & 0xFF_FFFF);
    }

    #[test]
    fn exchanged_causes_are_detected() {
        use Cause::*;
        let at_task = |file: &[u8], place: usize| file[place..].starts_with(b"TK");
        detected_exchange("6 before 5", OutOfRange, NotInFile, &|file, place| {
            at_task(file, place) && file[place + 20..place + 22] == [0, 0]
        });
        detected_exchange("5 before 4", TooMany, OutOfRange, &|file, place| {
            at_task(file, place) && file[place + 2..place + 6] == [0; 4]
        });
        detected_exchange("4 before 3", OutOfOrder, TooMany, &|file, place| {
            file[place..].starts_with(b"PR") && file[6 + 7 * 8..].starts_with(b"PR")
        });
        detected_exchange("3 before a cut record", Cut, OutOfOrder, &|file, place| {
            place > 0 && file[place..].starts_with(b"NT")
        });
        detected_exchange("2 before a cut mark", Cut, UnknownMark, &|file, place| {
            place + 1 == file.len() && !b"NPTCEM".contains(&file[place])
        });
        detected_exchange("10 before 7", PriorityUsed, HyperperiodTooLarge, &|file, place| {
            let mut unlike = file.to_vec();
            (0..30).any(|priority| {
                unlike[place + 18] = priority;
                read(&unlike) == Err(Refusal { cause: HyperperiodTooLarge, place })
            })
        });
    }
}
