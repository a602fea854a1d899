//! The histories that the program `bookings` is given, and what it must print for them.
//!
//! The program has a list of [`PLACES`] holdings, each at first a long Canada bond in CAD without maturity, value and
//! rating, and what is stored with a book. [`stdin`] has a record of ten eight-byte little-endian numbers for each
//! [`Step`]: its number, its own numbers, and zeros. [`stdout`] has lines of decimal numbers with commas between them and
//! CRLF after each: for a new book `N`, date and letter; for an order its refusal number or 0, the place or the new count,
//! and the five totals that are then stored; for the list a line `H` for each holding of the book, and for what stands
//! behind the last.

use std::fmt::Write;

use margin_host::{Head, Row};

use crate::{CLIENT, NOT_RATED, Order, PARTICIPANT, margin_add, margin_move, margin_take};

mod damaged;
mod dealt;
mod full;
mod typed;

/// The places of the program's list.
pub const PLACES: usize = 256;

/// What a place of the list has before anything is written to it.
const BLANK: Row = Row {
    side: 0,
    kind: 0,
    issuer: 0,
    maturity: 0,
    value: 0,
    currency: 0,
    rating: NOT_RATED,
};

/// What is stored with a book.
#[derive(Clone, Copy, Debug, PartialEq, Eq)]
pub struct Day {
    /// The valuation date and the account's letter.
    pub head: Head,
    /// How many holdings it has.
    pub count: u64,
    /// The totals of the five periods.
    pub totals: [u64; 5],
}

/// One record of the input.
#[derive(Clone, Copy, Debug, PartialEq, Eq)]
pub enum Step {
    /// 0, date, letter: an empty book. The list is as it was.
    New(Head),
    /// 1, side, kind, issuer, maturity, value, currency, rating: a trade is added. 2, the same: it is taken. 3, date: the
    /// book moves.
    Order(Order),
    /// 4, side, kind, issuer, maturity, value, currency, rating, place: a holding is written to a place.
    Put(Row, u64),
    /// 5, date, letter, count, the five totals: this is stored with the book.
    Store(Day),
    /// 6: the holdings of the book are printed, and what stands behind them where the list goes on.
    Show,
}

/// Some steps that begin with a new book.
#[derive(Clone, Debug)]
pub struct History {
    /// What it shows.
    pub title: String,
    /// The steps.
    pub steps: Vec<Step>,
}

/// All histories, in the order in which they are run.
#[must_use]
pub fn all() -> Vec<History> {
    let mut list = Vec::new();
    typed::add_to(&mut list);
    dealt::add_to(&mut list);
    full::add_to(&mut list);
    damaged::add_to(&mut list);
    list
}

/// The input of the program.
#[must_use]
pub fn stdin(histories: &[History]) -> Vec<u8> {
    let steps = histories.iter().flat_map(|history| &history.steps);
    steps
        .flat_map(Step::numbers)
        .flat_map(u64::to_le_bytes)
        .collect()
}

/// What the program must print.
#[must_use]
pub fn stdout(histories: &[History]) -> Vec<u8> {
    let mut desk = Desk::new();
    let steps = histories.iter().flat_map(|history| &history.steps);
    steps
        .map(|step| desk.step(step))
        .collect::<String>()
        .into_bytes()
}

impl Step {
    /// The numbers of the record.
    #[must_use]
    pub fn numbers(&self) -> [u64; 10] {
        let (kind, own) = match *self {
            Step::New(Head { date, letter }) => (0, vec![date, letter]),
            Step::Order(Order::Add(row)) => (1, row.to_numbers().to_vec()),
            Step::Order(Order::Take(row)) => (2, row.to_numbers().to_vec()),
            Step::Order(Order::Move(to)) => (3, vec![to]),
            Step::Put(row, place) => (4, [&row.to_numbers()[..], &[place]].concat()),
            Step::Store(Day {
                head,
                count,
                totals,
            }) => (5, [&[head.date, head.letter, count], &totals[..]].concat()),
            Step::Show => (6, Vec::new()),
        };
        let mut numbers = [0; 10];
        numbers[0] = kind;
        numbers[1..=own.len()].copy_from_slice(&own);
        numbers
    }
}

/// What the program keeps from one step to the next.
#[derive(Clone, Debug)]
pub struct Desk {
    list: Vec<u8>,
    day: Day,
}

impl Default for Desk {
    fn default() -> Desk {
        Desk::new()
    }
}

impl Desk {
    /// As it is before the first step.
    #[must_use]
    pub fn new() -> Desk {
        Desk {
            list: BLANK.to_bytes().repeat(PLACES),
            day: Day {
                head: Head { date: 0, letter: 0 },
                count: 0,
                totals: [0; 5],
            },
        }
    }

    /// Does a step, and gives what is printed for it.
    ///
    /// # Panics
    ///
    /// If a step names a place that the list does not have.
    pub fn step(&mut self, step: &Step) -> String {
        match *step {
            Step::New(head) => {
                self.day = Day {
                    head,
                    count: 0,
                    totals: [0; 5],
                };
                format!("N,{},{}\r\n", head.date, head.letter)
            }
            Step::Order(order) => self.order(&order),
            Step::Put(row, place) => {
                self.list.as_chunks_mut().0[place as usize] = row.to_bytes();
                String::new()
            }
            Step::Store(day) => {
                self.day = day;
                String::new()
            }
            Step::Show => {
                let shows = (self.day.count as usize).saturating_add(1);
                self.places().iter().take(shows).map(shown).collect()
            }
        }
    }

    /// What stands at the places of the list.
    #[must_use]
    pub fn places(&self) -> Vec<Row> {
        let records = self.list.as_chunks().0.iter();
        records.map(|record| Row::from_bytes(*record)).collect()
    }

    /// What is stored with the book.
    #[must_use]
    pub fn day(&self) -> Day {
        self.day
    }

    fn order(&mut self, order: &Order) -> String {
        let list = &mut self.list;
        let Day {
            head: Head { date, letter },
            count,
            totals,
        } = self.day;
        let mut stored = totals.map(u64::to_le_bytes);
        let (totals, mut answer) = (stored.as_flattened_mut(), [0; 16]);
        let number = match order {
            Order::Add(row) => margin_add(list, count, totals, date, letter, row, &mut answer),
            Order::Take(row) => margin_take(list, count, totals, date, letter, row, &mut answer),
            Order::Move(to) => margin_move(list, count, totals, date, letter, *to, &mut answer),
        };
        let first = u128::from_le_bytes(answer) as u64;
        self.day.totals = stored.map(u64::from_le_bytes);
        if number == 0 {
            self.day.count = first;
            if let Order::Move(to) = order {
                self.day.head.date = *to;
            }
        }
        let mut line = format!("{number},{first}");
        for total in self.day.totals {
            let _ = write!(line, ",{total}");
        }
        line + "\r\n"
    }
}

/// The line of a place of the list.
fn shown(row: &Row) -> String {
    let numbers = row.to_numbers().map(|number| number.to_string());
    format!("H,{}\r\n", numbers.join(","))
}

/// The letters of accounts in turn.
fn letter(turn: usize) -> u64 {
    [PARTICIPANT, CLIENT][turn % 2]
}
