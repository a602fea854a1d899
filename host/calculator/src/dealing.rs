//! Orders made from a seed, for the tests and for the histories that the program `bookings` is given.

use crate::samples::{Random, Shape, holdings};
use crate::{Ledger, NOT_RATED, Order, Row, calendar};

const HIGHEST_VALUE: u64 = 100_000_000_000;
/// Up to this valuation date every maturity of a shape is a date.
const LATEST_DRAWN: u64 = 2199_12_31;

/// How trades are drawn.
#[derive(Clone, Copy, Debug)]
pub struct Style {
    /// What holdings they are of.
    pub shape: Shape,
    /// How many descriptions are dealt in at a time.
    pub different: usize,
    /// How many of ten takings take all that is held.
    pub whole: u64,
    /// How many of a hundred orders move to another date.
    pub moves: u64,
    /// Puts a fault into a trade's description.
    pub fault: fn(&mut Random, &mut Row),
}

/// Gives orders that fit the book as it stands, most of them without fault.
#[derive(Clone, Debug)]
pub struct Dealer {
    style: Style,
    dealt: Vec<Row>,
}

impl Dealer {
    /// Draws what is dealt in first, on the book's date.
    pub fn new(random: &mut Random, style: Style, ledger: &Ledger) -> Dealer {
        let mut dealt = holdings(random, &style.shape, ledger.head().date, style.different);
        for at in (1..dealt.len()).step_by(2) {
            dealt[at] = nearly(random, dealt[at - 1], dealt[at]);
        }
        Dealer { style, dealt }
    }

    /// The next order.
    pub fn order(&mut self, random: &mut Random, ledger: &Ledger) -> Order {
        if random.below(100) < self.style.moves {
            return Order::Move(new_date(random, ledger));
        }
        match random.below(20) {
            0..9 => Order::Add(self.trade(random)),
            9..11 => Order::Add(self.new_trade(random, ledger)),
            11..17 => Order::Take(self.held(random, ledger)),
            17 => {
                let mut trade = self.trade(random);
                (self.style.fault)(random, &mut trade);
                random.pick(&[Order::Add(trade), Order::Take(trade)])
            }
            18 => {
                let held = self.held(random, ledger);
                Order::Add(too_much(random, held, ledger))
            }
            _ => {
                let held = self.held(random, ledger);
                Order::Take(not_held(random, held, ledger))
            }
        }
    }

    /// A trade of what is dealt in, with a value of its own.
    fn trade(&self, random: &mut Random) -> Row {
        let value = random.within(self.style.shape.values);
        Row {
            value,
            ..random.pick(&self.dealt)
        }
    }

    /// A trade of a new description, which is dealt in from now on.
    fn new_trade(&mut self, random: &mut Random, ledger: &Ledger) -> Row {
        let date = ledger.head().date;
        if date > LATEST_DRAWN {
            return self.trade(random);
        }
        let place = random.place(self.dealt.len());
        let drawn = holdings(random, &self.style.shape, date, 1)[0];
        let known = random.pick(&self.dealt);
        self.dealt[place] = match random.below(2) {
            0 => drawn,
            _ => nearly(random, known, drawn),
        };
        self.dealt[place]
    }

    /// A holding of the book with what is to be taken of it, or a trade where there is none.
    fn held(&self, random: &mut Random, ledger: &Ledger) -> Row {
        let book = ledger.holdings();
        if book.is_empty() {
            return self.trade(random);
        }
        let row = random.pick(&book);
        if random.below(10) < self.style.whole {
            return row;
        }
        Row {
            value: 1 + random.below(row.value),
            ..row
        }
    }
}

/// A row that differs from one in a single part of its description, which another may give.
fn nearly(random: &mut Random, row: Row, other: Row) -> Row {
    let fits = (row.rating == NOT_RATED) == (other.rating == NOT_RATED);
    match random.below(6) {
        0 => Row {
            side: 1 - row.side,
            ..row
        },
        1 => Row {
            kind: (row.kind + random.within(&[(1, 2)])) % 3,
            ..row
        },
        2 => Row {
            currency: (row.currency + random.within(&[(1, 2)])) % 3,
            ..row
        },
        3 if row.rating != NOT_RATED => Row {
            rating: 1 - row.rating,
            ..row
        },
        4 if fits => Row {
            issuer: other.issuer,
            ..row
        },
        _ => Row {
            maturity: other.maturity,
            ..row
        },
    }
}

/// What the book holds of a description.
fn value_held(row: &Row, ledger: &Ledger) -> u64 {
    let value = row.value;
    let holdings = ledger.holdings();
    let equal = holdings.iter().find(|held| Row { value, ..**held } == *row);
    equal.map_or(0, |held| held.value)
}

/// A trade whose value, or sum with what is held, is at the limit or past it.
fn too_much(random: &mut Random, row: Row, ledger: &Ledger) -> Row {
    let room = HIGHEST_VALUE - value_held(&row, ledger);
    let values = [
        0,
        room,
        room + 1,
        HIGHEST_VALUE,
        HIGHEST_VALUE + 1,
        u64::MAX,
    ];
    Row {
        value: random.pick(&values),
        ..row
    }
}

/// A trade that takes nothing, or about all that is held.
fn not_held(random: &mut Random, row: Row, ledger: &Ledger) -> Row {
    let held = value_held(&row, ledger);
    let values = [0, held, held + 1, HIGHEST_VALUE + 1, u64::MAX];
    Row {
        value: random.pick(&values),
        ..row
    }
}

/// A date to move to: mostly a day or a month on, or as far as the first maturity; some are none or not later.
fn new_date(random: &mut Random, ledger: &Ledger) -> u64 {
    let date = ledger.head().date;
    let first = ledger.holdings().iter().map(|row| row.maturity).min();
    let first = first.unwrap_or(date);
    match random.below(12) {
        0..3 => calendar::days_after(date, 1),
        3..5 => calendar::days_after(date, random.within(&[(2, 40)]) as i64),
        5 => calendar::days_after(date / 100 * 100 + 1, -1),
        // The last day of a month a month on or two.
        6 => calendar::days_after(calendar::days_after(date, 62) / 100 * 100 + 1, -1),
        7 => calendar::days_after(first, -1),
        8 => first,
        9 => calendar::anniversary(date, random.within(&[(1, 3)])),
        10 => date,
        _ => random.pick(&[0, date / 100 * 100, date / 100 * 100 + 32, u64::MAX]),
    }
}

/// Puts a fault into a description that only numbers can have, or one that a record of cases can have too.
pub fn fault_of_numbers(random: &mut Random, row: &mut Row) {
    match random.below(6) {
        0 => row.side = random.pick(&[2, u64::MAX]),
        1 => row.kind = random.pick(&[3, u64::MAX]),
        2 => row.currency = random.pick(&[3, u64::MAX]),
        3 => row.rating = random.pick(&[3, u64::MAX]),
        4 => row.maturity = random.pick(&[1 << 32 | row.maturity, u64::MAX]),
        _ => fault_of_cases(random, row),
    }
}

/// Puts a fault into a description that a record of cases can have: an issuer's number that is none, a maturity that is
/// no date or out of its term, or a rating that does not fit.
pub fn fault_of_cases(random: &mut Random, row: &mut Row) {
    match random.below(3) {
        0 => row.issuer = random.pick(&[13, 99, 356, 1 << 32, u64::MAX]),
        1 => {
            row.maturity = random.pick(&[
                0, 1899_12_31, 1900_01_01, 2031_02_29, 2299_12_31, 2300_01_01,
            ])
        }
        _ => row.rating = random.pick(if row.rating == 2 { &[0, 1] } else { &[2, 2] }),
    }
}
