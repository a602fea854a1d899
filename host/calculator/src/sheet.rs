//! A book under its head and a proposal in plain numbers, which may be outside their ranges.

use std::collections::HashMap;
use std::ops::{Deref, DerefMut};

use margin_host::{Columns, Head, Line, Row};

use crate::{Account, Position};

/// The valuation date of document 01's worked cases.
pub const VALUED: u64 = 2025_01_01;
/// The number of the letter `P`, an approved participant's.
pub const PARTICIPANT: u64 = 0;
/// The number of the letter `C`, a client's.
pub const CLIENT: u64 = 1;
/// The issuer number of a book's first corporation.
pub const FIRST_CORPORATION: u64 = 100;
/// The rating number of a government.
pub const NOT_RATED: u64 = 2;

/// The head of an approved participant's book on this valuation date.
#[must_use]
pub const fn participant(date: u64) -> Head {
    Head {
        date,
        letter: PARTICIPANT,
    }
}

/// The head of a client's book on this valuation date.
#[must_use]
pub const fn client(date: u64) -> Head {
    Head {
        date,
        letter: CLIENT,
    }
}

/// A head, and the columns of a book and of a proposal on it, which are reached as its own.
#[derive(Clone, Debug, PartialEq, Eq)]
pub struct Sheet {
    /// The valuation date and the account's letter.
    pub head: Head,
    /// The columns.
    pub columns: Columns<Vec<u64>>,
}

impl Deref for Sheet {
    type Target = Columns<Vec<u64>>;

    fn deref(&self) -> &Columns<Vec<u64>> {
        &self.columns
    }
}

impl DerefMut for Sheet {
    fn deref_mut(&mut self) -> &mut Columns<Vec<u64>> {
        &mut self.columns
    }
}

impl Sheet {
    /// The empty book under this head, without lines.
    #[must_use]
    pub fn empty(head: Head) -> Sheet {
        Sheet {
            head,
            columns: Columns::default(),
        }
    }

    /// A sheet of these holdings under this head, each at this price, without lines.
    #[must_use]
    pub fn of_rows(head: Head, rows: &[Row], price: u64) -> Sheet {
        let mut sheet = Sheet::empty(head);
        for row in rows {
            sheet.add_holding(*row, price);
        }
        sheet
    }

    /// The holding with this number, which all columns have.
    ///
    /// # Panics
    ///
    /// If a column has no such entry.
    #[must_use]
    pub fn row(&self, number: usize) -> Row {
        Row {
            side: self.side[number],
            kind: self.kind[number],
            issuer: self.issuer[number],
            maturity: self.maturity[number],
            value: self.value[number],
            currency: self.currency[number],
            rating: self.rating[number],
        }
    }

    /// The position of the holding with this number, whose numbers are in their ranges.
    ///
    /// # Panics
    ///
    /// If a column has no such entry, or the head is outside its ranges.
    #[must_use]
    pub fn position(&self, number: usize) -> Position {
        let account = Account::of(self.head).expect("a date and a letter");
        Position::of(&account, &self.row(number))
    }

    /// Adds a holding and its price.
    pub fn add_holding(&mut self, row: Row, price: u64) {
        self.side.push(row.side);
        self.kind.push(row.kind);
        self.issuer.push(row.issuer);
        self.maturity.push(row.maturity);
        self.value.push(row.value);
        self.price.push(price);
        self.currency.push(row.currency);
        self.rating.push(row.rating);
    }

    /// Adds a line.
    pub fn add_line(&mut self, line: Line) {
        self.long.push(line.long);
        self.short.push(line.short);
        self.amount.push(line.amount);
    }

    /// The sheet with its corporations numbered from 100 by first appearance, as those of a file are.
    #[must_use]
    pub fn renumbered(&self) -> Sheet {
        let mut sheet = self.clone();
        let mut numbers = HashMap::new();
        for issuer in &mut sheet.issuer {
            if *issuer >= FIRST_CORPORATION {
                let next = FIRST_CORPORATION + numbers.len() as u64;
                *issuer = *numbers.entry(*issuer).or_insert(next);
            }
        }
        sheet
    }

    /// The columns as bytes.
    #[must_use]
    pub fn bytes(&self) -> Columns<Vec<u8>> {
        let bytes = |column: &Vec<u64>| column.iter().copied().flat_map(u64::to_le_bytes).collect();
        self.each_ref().map(bytes)
    }
}
