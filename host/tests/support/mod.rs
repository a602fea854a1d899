//! What all tests share: lent bytes, the comparison with the calculator, faults to plant, and the papers' numbers.

// Each test file takes what it needs.
#![allow(dead_code)]

pub mod booking;
pub mod faults;
pub mod file;
pub mod lent;
pub mod sheets;

use std::fmt::{Arguments, Display};
use std::io::Write;

use lent::{Left, Lent};
use margin_calculator::samples::Random;
use margin_calculator::{Sheet, margin_check};
use margin_host::raw;

/// One of the columns of a sheet, in the order in which they are lent.
pub fn column(sheet: &mut Sheet, at: usize) -> &mut Vec<u64> {
    let columns = sheet.each_mut().into_array();
    columns.into_iter().nth(at).expect("there are eleven")
}

/// A test's books: where its random numbers start, and how many books it has compared.
pub struct Run {
    name: &'static str,
    seed: u64,
    books: usize,
    /// The random numbers of the test.
    pub random: Random,
}

impl Run {
    pub fn new(name: &'static str, seed: u64) -> Run {
        Run {
            name,
            seed,
            books: 0,
            random: Random::new(seed),
        }
    }

    /// A test without random numbers.
    pub fn fixed(name: &'static str) -> Run {
        Run::new(name, 0)
    }

    /// Calls the check and the calculator on the same bytes; both must leave the same everywhere.
    pub fn compare(&mut self, lent: &Lent, what: Arguments<'_>) -> Left {
        self.books += 1;
        let ours = lent.run(raw::margin_check);
        let calculated = lent.run(margin_check);
        let story = || format!("{}\n{lent:?}", self.story(&what));
        assert_eq!(
            ours,
            calculated,
            "the check against the calculator: {}",
            story()
        );
        assert!(
            ours.intact && ours.keeps_what_it_must(lent),
            "bytes that are not to be written: {}",
            story()
        );
        ours
    }

    /// Compares, and demands this refusal.
    pub fn refused(&mut self, lent: &Lent, wanted: (u64, u64, u64), what: Arguments<'_>) {
        let left = self.compare(lent, what);
        let story = || format!("{}\n{lent:?}", self.story(&what));
        assert_eq!(left.number, wanted.0, "the number: {}", story());
        if left.answer.len() >= 16 {
            assert_eq!(
                left.figures(),
                (wanted.1, wanted.2),
                "the places: {}",
                story()
            );
        }
    }

    /// Compares, and demands acceptance with these units.
    pub fn accepted(&mut self, lent: &Lent, units: u64, what: Arguments<'_>) {
        let left = self.compare(lent, what);
        let story = || format!("{}\n{lent:?}", self.story(&what));
        assert_eq!(left.number, 0, "the number: {}", story());
        assert_eq!(
            left.figures(),
            (units, units.div_ceil(146_000)),
            "{}",
            story()
        );
    }

    /// The units that the calculator gives for a sheet that both accept.
    pub fn units(&mut self, sheet: &Sheet, what: Arguments<'_>) -> u64 {
        let left = self.compare(&Lent::of(sheet), what);
        assert_eq!(left.number, 0, "{}\n{sheet:?}", self.story(&what));
        left.figures().0
    }

    fn story(&self, what: &dyn Display) -> String {
        format!(
            "{}, seed {:#x}, book {}: {what}",
            self.name, self.seed, self.books
        )
    }
}

impl Drop for Run {
    /// Says how many books there were and where they came from, also when the test passes.
    fn drop(&mut self) {
        let line = match self.seed {
            0 => format!("    {}: books compared {}\n", self.name, self.books),
            seed => format!(
                "    {}: books compared {}, seed {seed:#x}\n",
                self.name, self.books
            ),
        };
        let _ = std::io::stderr().write_all(line.as_bytes());
    }
}
