//! Columns and lists as bytes, lent between guard bytes.

use std::fmt;

use margin_calculator::Sheet;
use margin_host::{Columns, Head};

/// Bytes on each side of a list that nobody may write.
const GUARD: usize = 24;
/// The names of the columns in the order of the call.
pub const NAMES: [&str; 11] = [
    "side", "kind", "issuer", "maturity", "value", "price", "currency", "rating", "long", "short",
    "amount",
];
/// How many of them are columns of the holdings; the rest are columns of the lines.
pub const OF_HOLDINGS: usize = 8;

/// The bytes that a call gets. The lists are filled with a pattern.
#[derive(Clone)]
pub struct Lent {
    pub head: Head,
    pub columns: [Vec<u8>; NAMES.len()],
    pub remainder: Vec<u8>,
    pub ranking: Vec<u8>,
    pub answer: Vec<u8>,
}

/// What a call leaves.
#[derive(Debug, PartialEq, Eq)]
pub struct Left {
    /// Whether the columns and all bytes beside the lists are as they were.
    pub intact: bool,
    pub number: u64,
    pub remainder: Vec<u8>,
    pub ranking: Vec<u8>,
    pub answer: Vec<u8>,
}

type Call = fn(u64, u64, &Columns<&[u8]>, &mut [u8], &mut [u8], &mut [u8]) -> u64;

impl Lent {
    /// The columns of a sheet, with lists that are as long as they must be.
    pub fn of(sheet: &Sheet) -> Lent {
        let columns = sheet.bytes().into_array();
        let bytes = columns[0].len();
        Lent {
            head: sheet.head,
            columns,
            remainder: pattern(bytes, 0x51),
            ranking: pattern(bytes, 0xA3),
            answer: pattern(16, 0xC7),
        }
    }

    /// Lends lists of these lengths in bytes.
    pub fn lists(&mut self, remainder: usize, ranking: usize) {
        self.remainder = pattern(remainder, 0x51);
        self.ranking = pattern(ranking, 0xA3);
    }

    /// Lends an answer slice of this length.
    pub fn answer(&mut self, length: usize) {
        self.answer = pattern(length, 0xC7);
    }

    /// Calls with lists between guard bytes, at addresses that are no multiples of eight.
    pub fn run(&self, call: Call) -> Left {
        let shift = 1 + self.remainder.len() % 7;
        let columns = self.columns.each_ref().map(|column| guarded(column, shift));
        let mut lists =
            [&self.remainder, &self.ranking, &self.answer].map(|list| guarded(list, shift));
        let lent = Columns::from_array(columns.each_ref().map(|column| inside(column, shift)));
        let [remainder, ranking, answer] = lists.each_mut().map(|list| {
            let end = list.len() - GUARD;
            &mut list[GUARD + shift..end]
        });
        let Head { date, letter } = self.head;
        let number = call(date, letter, &lent, remainder, ranking, answer);
        let [remainder, ranking, answer] =
            lists.each_ref().map(|list| inside(list, shift).to_vec());
        let beside = [&remainder, &ranking, &answer].map(|list| guarded(list, shift));
        let before = self.columns.each_ref().map(|column| guarded(column, shift));
        Left {
            intact: columns == before && lists == beside,
            number,
            remainder,
            ranking,
            answer,
        }
    }

    fn entries(&self) -> usize {
        self.columns[0].len() / 8
    }
}

impl Left {
    /// The two numbers of the answer slice.
    pub fn figures(&self) -> (u64, u64) {
        (number(&self.answer[..8]), number(&self.answer[8..16]))
    }

    /// The entries of a list.
    pub fn entries(list: &[u8]) -> Vec<u64> {
        list.chunks_exact(8).map(number).collect()
    }

    /// A refusal keeps both lists, acceptance all past their entries; the answer keeps all from 16 on,
    /// or everything if it is shorter than that.
    pub fn keeps_what_it_must(&self, lent: &Lent) -> bool {
        let written = if self.number == 0 {
            8 * lent.entries()
        } else {
            0
        };
        let answered = if lent.answer.len() < 16 { 0 } else { 16 };
        self.remainder[written..] == lent.remainder[written..]
            && self.ranking[written..] == lent.ranking[written..]
            && self.answer[answered..] == lent.answer[answered..]
    }
}

impl fmt::Debug for Lent {
    fn fmt(&self, f: &mut fmt::Formatter<'_>) -> fmt::Result {
        writeln!(f, "{:?}", self.head)?;
        for (name, column) in NAMES.iter().zip(&self.columns) {
            let rest = &column[column.len() / 8 * 8..];
            writeln!(f, "{name}: {:?} and bytes {rest:?}", Left::entries(column))?;
        }
        let lists = [&self.remainder, &self.ranking, &self.answer].map(|list| list.len());
        write!(f, "bytes of remainder, ranking and answer: {lists:?}")
    }
}

/// Bytes that differ from their neighbours but one and from zero.
pub fn pattern(length: usize, start: u8) -> Vec<u8> {
    let cycle: [u8; 251] = std::array::from_fn(|at| start.wrapping_add(at as u8) | 1);
    let mut bytes = cycle.repeat(length.div_ceil(cycle.len()));
    bytes.truncate(length);
    bytes
}

fn number(bytes: &[u8]) -> u64 {
    u64::from_le_bytes(bytes.try_into().expect("eight bytes"))
}

fn guarded(bytes: &[u8], shift: usize) -> Vec<u8> {
    let mut all = pattern(GUARD + shift, 0x17);
    all.extend_from_slice(bytes);
    all.extend(pattern(GUARD, 0x2B));
    all
}

fn inside(all: &[u8], shift: usize) -> &[u8] {
    &all[GUARD + shift..all.len() - GUARD]
}
