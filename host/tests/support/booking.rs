//! A book as bytes, lent between guard bytes, and the comparison of bookings.

use std::fmt::{Arguments, Display};
use std::io::Write;
use std::ops::Range;

use margin_calculator::samples::Random;
use margin_calculator::{Order, Row, margin_add, margin_move, margin_take, totals_of};
use margin_host::{Head, raw};

use super::lent::pattern;

/// Bytes before and after each part that nobody may write; odd, so that few parts are aligned.
const GUARD: usize = 13;
/// The bytes of the five totals, and of the two numbers of an answer.
pub const TOTALS: usize = 40;
pub const ANSWER: usize = 16;

/// A book as it is lent, and the length of the answer.
#[derive(Clone, PartialEq, Eq)]
pub struct LentBook {
    pub list: Vec<u8>,
    pub count: u64,
    pub totals: Vec<u8>,
    pub head: Head,
    pub answer: usize,
}

/// What a booking leaves.
#[derive(PartialEq, Eq)]
pub struct LeftBook {
    pub number: u64,
    memory: Memory,
}

/// List, totals and answer one after the other with guards between them, and where each lies.
#[derive(Clone, PartialEq, Eq)]
struct Memory {
    bytes: Vec<u8>,
    spans: [Range<usize>; 3],
}

/// An adding or a taking, and a move.
type Trading = fn(&mut [u8], u64, &mut [u8], u64, u64, &Row, &mut [u8]) -> u64;
type Moving = fn(&[u8], u64, &mut [u8], u64, u64, u64, &mut [u8]) -> u64;

/// The three functions of one side.
struct Calls {
    add: Trading,
    take: Trading,
    move_to: Moving,
}

const OURS: Calls = Calls {
    add: raw::margin_add,
    take: raw::margin_take,
    move_to: raw::margin_move,
};
const CALCULATED: Calls = Calls {
    add: margin_add,
    take: margin_take,
    move_to: margin_move,
};

/// The records of rows.
pub fn records(rows: &[Row]) -> Vec<u8> {
    rows.iter().flat_map(|row| row.to_bytes()).collect()
}

/// The bytes of totals.
pub fn total_bytes(totals: [u64; 5]) -> Vec<u8> {
    totals
        .iter()
        .flat_map(|total| total.to_le_bytes())
        .collect()
}

impl LentBook {
    /// The book of these holdings with their totals, in a list of so many places.
    pub fn of(head: Head, rows: &[Row], room: usize) -> LentBook {
        LentBook::stored(head, rows, totals_of(head, rows), room)
    }

    /// The book of these holdings with totals that may be off, in a list of so many places.
    pub fn stored(head: Head, rows: &[Row], totals: [u64; 5], room: usize) -> LentBook {
        let mut list = records(rows);
        let free = (Row::LENGTH * room).saturating_sub(list.len());
        list.extend(pattern(free, 0x51));
        LentBook {
            list,
            count: rows.len() as u64,
            totals: total_bytes(totals),
            head,
            answer: ANSWER,
        }
    }

    /// The book with one of its holdings changed, its totals as they were.
    pub fn change(&mut self, place: usize, change: impl FnOnce(&mut Row)) {
        let record = &mut self.list.as_chunks_mut().0[place];
        let mut row = Row::from_bytes(*record);
        change(&mut row);
        *record = row.to_bytes();
    }

    /// The first places of the list, as many as are counted and there.
    pub fn rows(&self) -> Vec<Row> {
        let count = usize::try_from(self.count).unwrap_or(usize::MAX);
        let records = self.list.as_chunks().0.iter().take(count);
        records.map(|record| Row::from_bytes(*record)).collect()
    }

    fn memory(&self) -> Memory {
        let mut bytes = pattern(1 + self.answer % 7, 0x17);
        let answer = pattern(self.answer, 0xC7);
        let spans = [&self.list, &self.totals, &answer].map(|part| {
            bytes.extend(pattern(GUARD, 0x2B));
            let start = bytes.len();
            bytes.extend(part);
            start..bytes.len()
        });
        bytes.extend(pattern(GUARD, 0x2B));
        Memory { bytes, spans }
    }
}

impl Memory {
    fn run(&self, calls: &Calls, book: &LentBook, order: &Order) -> LeftBook {
        let mut memory = self.clone();
        let mut rest = memory.bytes.as_mut_slice();
        let mut taken = 0;
        let [list, totals, answer] = self.spans.each_ref().map(|span| {
            let tail = std::mem::take(&mut rest).split_at_mut(span.start - taken).1;
            let (part, tail) = tail.split_at_mut(span.len());
            (rest, taken) = (tail, span.end);
            part
        });
        let (count, Head { date, letter }) = (book.count, book.head);
        let number = match order {
            Order::Add(row) => (calls.add)(list, count, totals, date, letter, row, answer),
            Order::Take(row) => (calls.take)(list, count, totals, date, letter, row, answer),
            Order::Move(to) => (calls.move_to)(list, count, totals, date, letter, *to, answer),
        };
        LeftBook { number, memory }
    }

    fn part(&self, at: usize) -> &[u8] {
        &self.bytes[self.spans[at].clone()]
    }
}

impl LeftBook {
    pub fn list(&self) -> &[u8] {
        self.memory.part(0)
    }

    pub fn totals(&self) -> &[u8] {
        self.memory.part(1)
    }

    pub fn answer(&self) -> &[u8] {
        self.memory.part(2)
    }

    /// The two numbers of an answer that has them.
    pub fn figures(&self) -> Option<(u64, u64)> {
        let both: [u8; ANSWER] = self.answer().get(..ANSWER)?.try_into().ok()?;
        let both = u128::from_le_bytes(both);
        Some((both as u64, (both >> 64) as u64))
    }

    /// The book after the order: what was lent, where it was refused.
    pub fn book(&self, lent: &LentBook, order: &Order) -> LentBook {
        let mut book = LentBook {
            list: self.list().to_vec(),
            totals: self.totals().to_vec(),
            ..lent.clone()
        };
        if self.number == 0 {
            book.count = self.figures().expect("an accepted order has an answer").0;
            if let Order::Move(to) = order {
                book.head.date = *to;
            }
        }
        book
    }

    /// Whether only these differ from what was lent: the first 16 bytes of an answer that has them; and after an accepted
    /// order the first 40 of the totals, and after a trade the records up to the last holding.
    fn keeps_what_it_must(&self, order: &Order, mut before: Memory) -> bool {
        let answered = self.figures();
        let counted = match (self.number, answered, order) {
            (0, Some((count, _)), Order::Add(_) | Order::Take(_)) => count as usize,
            _ => 0,
        };
        let written = [
            Row::LENGTH * counted,
            if self.number == 0 { TOTALS } else { 0 },
            if answered.is_some() { ANSWER } else { 0 },
        ];
        for (at, length) in written.into_iter().enumerate() {
            let Some(front) = self.memory.part(at).get(..length) else {
                return false;
            };
            let start = before.spans[at].start;
            before.bytes[start..start + length].copy_from_slice(front);
        }
        before == self.memory
    }
}

/// A test's orders: where its random numbers start, and how many orders it has compared.
pub struct Orders {
    name: &'static str,
    seed: u64,
    count: usize,
    /// How many orders got each number.
    pub seen: [usize; 28],
    /// The random numbers of the test.
    pub random: Random,
}

impl Orders {
    pub fn new(name: &'static str, seed: u64) -> Orders {
        Orders {
            name,
            seed,
            count: 0,
            seen: [0; 28],
            random: Random::new(seed),
        }
    }

    /// A test without random numbers.
    pub fn fixed(name: &'static str) -> Orders {
        Orders::new(name, 0)
    }

    /// Gives an order to both on the same bytes; both must leave the same everywhere.
    pub fn compare(&mut self, book: &LentBook, order: &Order, what: Arguments<'_>) -> LeftBook {
        self.count += 1;
        let memory = book.memory();
        let ours = memory.run(&OURS, book, order);
        let calculated = memory.run(&CALCULATED, book, order);
        let story = || self.story(book, order, &what);
        assert_eq!(ours.number, calculated.number, "the number: {}", story());
        let both = [ours.figures(), calculated.figures()];
        assert_eq!(both[0], both[1], "the answer: {}", story());
        assert!(ours.list() == calculated.list(), "the list: {}", story());
        assert!(
            ours.totals() == calculated.totals(),
            "the totals: {}",
            story()
        );
        assert!(
            ours == calculated && ours.keeps_what_it_must(order, memory),
            "bytes that are not to be written: {}",
            story()
        );
        self.seen[ours.number as usize] += 1;
        ours
    }

    /// Compares, and demands this refusal at this place.
    pub fn refused(
        &mut self,
        book: &LentBook,
        order: &Order,
        wanted: (u64, u64),
        what: Arguments<'_>,
    ) {
        let left = self.compare(book, order, what);
        let story = || self.story(book, order, &what);
        assert_eq!(left.number, wanted.0, "the number: {}", story());
        if let Some(figures) = left.figures() {
            assert_eq!(figures, (wanted.1, 0), "the place: {}", story());
        }
    }

    /// Compares, and demands that the book then has these holdings and their totals; gives the book.
    pub fn accepted(
        &mut self,
        book: &LentBook,
        order: &Order,
        rows: &[Row],
        what: Arguments<'_>,
    ) -> LentBook {
        let left = self.compare(book, order, what);
        let story = || self.story(book, order, &what);
        assert_eq!(left.number, 0, "the number: {}", story());
        assert_eq!(
            left.figures(),
            Some((rows.len() as u64, 0)),
            "the count: {}",
            story()
        );
        let after = left.book(book, order);
        assert_eq!(after.rows(), rows, "the holdings: {}", story());
        let totals = total_bytes(totals_of(after.head, rows));
        assert!(after.totals.starts_with(&totals), "the totals: {}", story());
        after
    }

    /// Demands that each of these numbers was seen at least so often.
    pub fn has_seen(&self, numbers: &[usize], least: usize) {
        for number in numbers {
            let seen = self.seen[*number];
            assert!(seen >= least, "{number} only {seen} times: {:?}", self.seen);
        }
    }

    fn story(&self, book: &LentBook, order: &Order, what: &dyn Display) -> String {
        let LentBook {
            list,
            count,
            totals,
            head,
            answer,
        } = book;
        let stored: Vec<u64> = totals
            .as_chunks()
            .0
            .iter()
            .map(|total| u64::from_le_bytes(*total))
            .collect();
        format!(
            "{}, seed {:#x}, order {}: {what}\n{order:?}\n{head:?}, count {count}, bytes of list {}, totals {} and answer \
             {answer}\ntotals {stored:?}\nholdings {:#?}",
            self.name,
            self.seed,
            self.count,
            list.len(),
            totals.len(),
            book.rows(),
        )
    }
}

impl Drop for Orders {
    /// Says how many orders there were, where they came from and how often each number was given.
    fn drop(&mut self) {
        let numbers = self
            .seen
            .iter()
            .enumerate()
            .filter(|(_, count)| **count > 0);
        let seen: Vec<String> = numbers
            .map(|(number, count)| format!("{number}: {count}"))
            .collect();
        let seed = match self.seed {
            0 => String::new(),
            seed => format!(", seed {seed:#x}"),
        };
        let line = format!(
            "    {}: orders compared {}{seed}; by number {}\n",
            self.name,
            self.count,
            seen.join(", ")
        );
        let _ = std::io::stderr().write_all(line.as_bytes());
    }
}
