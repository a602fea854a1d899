//! Files and lists as bytes, lent between guard bytes, and the comparison of the readers.

use std::fmt::{Arguments, Display};
use std::io::Write;
use std::ops::Range;

use margin_calculator::samples::Random;
use margin_calculator::texts::PRINTED;
use margin_calculator::{Sheet, margin_leis, margin_read};
use margin_host::{Columns, Head, raw};

use super::lent::{NAMES, OF_HOLDINGS, pattern};

/// Bytes before and after each list that nobody may write; odd, so that few lists are aligned.
const GUARD: usize = 13;
/// Bytes for the LEIs of every file, and one that is never written.
const ROOM_OF_LEIS: usize = 20 * 256 + 1;
/// The lists that a reader fills.
pub const LISTS: usize = NAMES.len();
/// The bytes of the head: the valuation date and the account's letter.
pub const HEAD_LENGTH: usize = 16;
/// The head comes after the text, then the lists and then the answer.
const HEAD: usize = 1;
const FIRST_LIST: usize = 2;
const ANSWER: usize = FIRST_LIST + LISTS;

/// What a reader gets: a text, and the lengths in bytes of the head, of the lists and of the answer.
#[derive(Clone, Debug)]
pub struct File {
    pub text: Vec<u8>,
    pub head: usize,
    pub lists: [usize; LISTS],
    pub answer: usize,
}

/// Text, head, lists and answer one after the other with guards between them, and where each lies.
#[derive(Clone, PartialEq, Eq)]
struct Memory {
    bytes: Vec<u8>,
    spans: [Range<usize>; ANSWER + 1],
}

/// What a reader leaves: its number, and all memory that was lent to it.
#[derive(PartialEq, Eq)]
pub struct Read {
    pub number: u64,
    memory: Memory,
}

type Call = fn(&[u8], &mut [u8], &mut Columns<&mut [u8]>, &mut [u8]) -> u64;

impl File {
    /// A text, with lists that have room for every file.
    pub fn of(text: &[u8]) -> File {
        File::exact(text, 256, 512)
    }

    /// A text, with lists that are as long as the file of so many holdings and lines asks.
    pub fn exact(text: &[u8], holdings: usize, lines: usize) -> File {
        let entries = |at| if at < OF_HOLDINGS { holdings } else { lines };
        File {
            text: text.to_vec(),
            head: HEAD_LENGTH,
            lists: std::array::from_fn(|at| 8 * entries(at)),
            answer: 16,
        }
    }

    fn memory(&self) -> Memory {
        let mut spans = [const { 0..0 }; ANSWER + 1];
        let mut end = 1 + self.answer % 7;
        let lengths = [self.text.len(), self.head].into_iter().chain(self.lists);
        for (span, length) in spans.iter_mut().zip(lengths.chain([self.answer])) {
            let start = end + GUARD;
            end = start + length;
            *span = start..end;
        }
        let mut bytes = pattern(end + GUARD, 0x51);
        bytes[spans[0].clone()].copy_from_slice(&self.text);
        Memory { bytes, spans }
    }
}

impl Memory {
    fn run(&self, call: Call) -> Read {
        let mut memory = self.clone();
        let mut rest = memory.bytes.as_mut_slice();
        let mut taken = 0;
        let [text, head, lists @ .., answer] = self.spans.each_ref().map(|span| {
            let tail = std::mem::take(&mut rest).split_at_mut(span.start - taken).1;
            let (list, tail) = tail.split_at_mut(span.len());
            (rest, taken) = (tail, span.end);
            list
        });
        let number = call(text, head, &mut Columns::from_array(lists), answer);
        Read { number, memory }
    }

    fn part(&self, at: usize) -> &[u8] {
        &self.bytes[self.spans[at].clone()]
    }
}

impl Read {
    /// One of the lists.
    pub fn list(&self, at: usize) -> &[u8] {
        self.memory.part(FIRST_LIST + at)
    }

    pub fn head(&self) -> &[u8] {
        self.memory.part(HEAD)
    }

    pub fn answer(&self) -> &[u8] {
        self.memory.part(ANSWER)
    }

    /// The two numbers of an answer that has them.
    pub fn figures(&self) -> Option<(u64, u64)> {
        let both: [u8; 16] = self.answer().get(..16)?.try_into().ok()?;
        let both = u128::from_le_bytes(both);
        Some((both as u64, (both >> 64) as u64))
    }

    /// What was read, from the front of the head and of the lists.
    pub fn sheet(&self) -> Sheet {
        let (holdings, lines) = self.figures().expect("a file that is read has an answer");
        let head = self.head().as_chunks().0;
        let [date, letter] = [head[0], head[1]].map(u64::from_le_bytes);
        let mut sheet = Sheet::empty(Head { date, letter });
        for (at, list) in sheet.each_mut().into_array().into_iter().enumerate() {
            let count = if at < OF_HOLDINGS { holdings } else { lines } as usize;
            let entries = self.list(at).as_chunks::<8>().0;
            list.extend(
                entries[..count]
                    .iter()
                    .map(|entry| u64::from_le_bytes(*entry)),
            );
        }
        sheet
    }

    /// Whether only the entries of a file that is read, and the first 16 bytes of an answer that has
    /// them, differ from what was lent.
    fn keeps_what_it_must(&self, mut before: Memory) -> bool {
        let mut written = Vec::with_capacity(ANSWER + 1);
        if let Some((holdings, lines)) = self.figures() {
            written.push((ANSWER, 16));
            if self.number == 0 {
                written.push((HEAD, HEAD_LENGTH));
                let lists = File::exact(&[], holdings as usize, lines as usize).lists;
                written.extend(
                    lists
                        .into_iter()
                        .enumerate()
                        .map(|(at, length)| (FIRST_LIST + at, length)),
                );
            }
        }
        for (at, length) in written {
            let Some(front) = self.memory.part(at).get(..length) else {
                return false;
            };
            let start = before.spans[at].start;
            before.bytes[start..start + length].copy_from_slice(front);
        }
        before == self.memory
    }
}

/// A test's files: where its random numbers start, and how many files it has compared.
pub struct Files {
    name: &'static str,
    seed: u64,
    count: usize,
    /// How many files were refused with each number.
    pub seen: [usize; 26],
    /// The random numbers of the test.
    pub random: Random,
}

impl Files {
    pub fn new(name: &'static str, seed: u64) -> Files {
        Files {
            name,
            seed,
            count: 0,
            seen: [0; 26],
            random: Random::new(seed),
        }
    }

    /// A test without random numbers.
    pub fn fixed(name: &'static str) -> Files {
        Files::new(name, 0)
    }

    /// Calls both readers on the same bytes; both must leave the same everywhere.
    pub fn compare(&mut self, file: &File, what: Arguments<'_>) -> Read {
        self.count += 1;
        let memory = file.memory();
        let ours = memory.run(raw::margin_read);
        let calculated = memory.run(margin_read);
        let story = || self.story(file, &what);
        assert_eq!(ours.number, calculated.number, "the number: {}", story());
        assert_eq!(
            ours.figures(),
            calculated.figures(),
            "the answer: {}",
            story()
        );
        assert!(ours.head() == calculated.head(), "the head: {}", story());
        for (at, name) in NAMES.iter().enumerate() {
            assert!(ours.list(at) == calculated.list(at), "{name}: {}", story());
        }
        assert!(
            ours == calculated && ours.keeps_what_it_must(memory),
            "bytes that are not to be written: {}",
            story()
        );
        self.same_leis(file, &what);
        self.seen[ours.number as usize] += 1;
        ours
    }

    /// Asks for the LEIs of the same text, with room for those of every file; both must leave the same.
    fn same_leis(&self, file: &File, what: &dyn Display) {
        let [ours, calculated] = [raw::margin_leis, margin_leis].map(|call| {
            let (mut leis, mut answer) = ([0x51; ROOM_OF_LEIS], [0xA3; 17]);
            let number = call(&file.text, &mut leis, &mut answer);
            (number, answer, leis)
        });
        assert!(ours == calculated, "the LEIs: {}", self.story(file, what));
    }

    /// Compares, and demands this refusal at this place.
    pub fn refused(&mut self, file: &File, wanted: (u64, u64), what: Arguments<'_>) {
        let read = self.compare(file, what);
        assert_eq!(
            read.number,
            wanted.0,
            "the number: {}",
            self.story(file, &what)
        );
        if let Some(figures) = read.figures() {
            assert_eq!(
                figures,
                (wanted.1, 0),
                "the place: {}",
                self.story(file, &what)
            );
        }
    }

    /// Compares, and demands that this was read.
    pub fn accepted(&mut self, file: &File, sheet: &Sheet, what: Arguments<'_>) {
        let read = self.compare(file, what);
        assert_eq!(read.number, 0, "the number: {}", self.story(file, &what));
        assert_eq!(read.sheet(), *sheet, "{}", self.story(file, &what));
    }

    /// Demands that each of these numbers was seen at least so often.
    pub fn has_seen(&self, numbers: &[usize], least: usize) {
        for number in numbers {
            let seen = self.seen[*number];
            assert!(seen >= least, "{number} only {seen} times: {:?}", self.seen);
        }
    }

    fn story(&self, file: &File, what: &dyn Display) -> String {
        let File {
            text,
            head,
            lists,
            answer,
        } = file;
        let shown = text[..text.len().min(2_000)].escape_ascii();
        format!(
            "{}, seed {:#x}, file {}: {what}\n{} bytes: {shown}\nhead {head}, lists {lists:?}, \
             answer {answer}",
            self.name,
            self.seed,
            self.count,
            text.len()
        )
    }
}

impl Drop for Files {
    /// Says how many files there were, where they came from and how often each number was given.
    fn drop(&mut self) {
        let numbers = self
            .seen
            .iter()
            .enumerate()
            .filter(|(_, count)| **count > 0);
        let mut seen = Vec::new();
        for (number, count) in numbers {
            seen.push(format!("{number}: {count}"));
        }
        let seed = match self.seed {
            0 => String::new(),
            seed => format!(", seed {seed:#x}"),
        };
        let line = format!(
            "    {}: files compared {}{seed}; by number {}\n",
            self.name,
            self.count,
            seen.join(", ")
        );
        let _ = std::io::stderr().write_all(line.as_bytes());
    }
}

/// The file of the printed date and one more record.
pub fn after_date(record: impl AsRef<[u8]>) -> Vec<u8> {
    [PRINTED[0].as_bytes(), b"\r\n", record.as_ref()].concat()
}

/// A record with another text for one field.
pub fn with_field(record: &str, at: usize, field: &[u8]) -> Vec<u8> {
    let mut fields: Vec<&[u8]> = record.as_bytes().split(|byte| *byte == b',').collect();
    fields[at] = field;
    fields.join(&b","[..])
}
