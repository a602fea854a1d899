//! The pairing with the largest saving, and prices that show that no other saves more.
//!
//! Each long in turn sends its value to the shorts along shortest paths, where the length of a pair is by
//! how much its two prices exceed its saving rate. After each path the prices move by the distances, so
//! they always cover, and what is priced above 0 is used up. All of it is in whole numbers.

use margin_host::{Line, Refusal};

use crate::Sheet;
use crate::article::{Account, Position, saving_rate};
use crate::plain::{MOST_HOLDINGS, in_range};

mod forest;
mod path;

use path::Search;

/// A best proposal for a book.
#[derive(Clone, Debug, PartialEq, Eq)]
pub struct Best {
    /// A price for each holding.
    pub price: Vec<u64>,
    /// The lines, no two on the same holdings, and fewer than there are holdings.
    pub lines: Vec<Line>,
}

impl Best {
    /// Puts the proposal on a sheet in place of the one that was there.
    pub fn put_on(self, sheet: &mut Sheet) {
        sheet.price = self.price;
        sheet.long = self.lines.iter().map(|line| line.long).collect();
        sheet.short = self.lines.iter().map(|line| line.short).collect();
        sheet.amount = self.lines.iter().map(|line| line.amount).collect();
    }
}

/// Finds a best proposal for the book of a sheet, whatever the proposal on it.
///
/// # Errors
///
/// A book that the check would refuse whatever the proposal, with that refusal.
pub fn optimise(book: &Sheet) -> Result<Best, Refusal> {
    let mut market = Market::of(book)?;
    for long in 0..market.longs.len() {
        market.place(long);
    }
    forest::thin(&mut market);
    Ok(market.best(book.side.len()))
}

/// One side of the market: holding numbers, what is left of their values, and their prices.
struct Side {
    holdings: Vec<usize>,
    left: Vec<u64>,
    price: Vec<u64>,
}

impl Side {
    fn len(&self) -> usize {
        self.holdings.len()
    }
}

/// Longs against shorts. `saving` and `amount` have a row for each long and a column for each short.
struct Market {
    longs: Side,
    shorts: Side,
    saving: Vec<Option<u64>>,
    amount: Vec<u64>,
}

impl Market {
    fn of(book: &Sheet) -> Result<Market, Refusal> {
        let positions = positions(book)?;
        let side = |side: u64| {
            let holdings: Vec<usize> = (0..positions.len())
                .filter(|number| book.side[*number] == side)
                .collect();
            let left = holdings.iter().map(|number| book.value[*number]).collect();
            let price = vec![0; holdings.len()];
            Side {
                holdings,
                left,
                price,
            }
        };
        let (mut longs, shorts) = (side(0), side(1));
        let saving = savings(&positions, &longs, &shorts);
        if shorts.len() > 0 {
            for (price, row) in longs.price.iter_mut().zip(saving.chunks(shorts.len())) {
                *price = row.iter().flatten().copied().max().unwrap_or(0);
            }
        }
        let amount = vec![0; saving.len()];
        Ok(Market {
            longs,
            shorts,
            saving,
            amount,
        })
    }

    fn cell(&self, long: usize, short: usize) -> usize {
        long * self.shorts.len() + short
    }

    /// By how much two prices exceed the saving rate of an allowed pair.
    fn slack(&self, long: usize, short: usize) -> Option<u64> {
        let saving = self.saving[self.cell(long, short)]?;
        Some(self.longs.price[long] + self.shorts.price[short] - saving)
    }

    /// Pairs what is left of a long until it is used up or its price is 0.
    fn place(&mut self, long: usize) {
        while self.longs.left[long] > 0 && self.longs.price[long] > 0 {
            let search = Search::from(self, long);
            search.move_prices(self);
            search.send(self);
        }
    }

    fn best(&self, holdings: usize) -> Best {
        let mut price = vec![0; holdings];
        for side in [&self.longs, &self.shorts] {
            for (number, value) in side.holdings.iter().zip(&side.price) {
                price[*number] = *value;
            }
        }
        let mut lines = Vec::new();
        for (row, long) in self.longs.holdings.iter().enumerate() {
            for (column, short) in self.shorts.holdings.iter().enumerate() {
                let amount = self.amount[self.cell(row, column)];
                if amount > 0 {
                    let (long, short) = (*long as u64, *short as u64);
                    lines.push(Line {
                        long,
                        short,
                        amount,
                    });
                }
            }
        }
        Best { price, lines }
    }
}

fn savings(positions: &[Position], longs: &Side, shorts: &Side) -> Vec<Option<u64>> {
    let mut savings = Vec::with_capacity(longs.len() * shorts.len());
    for long in &longs.holdings {
        for short in &shorts.holdings {
            savings.push(saving_rate(&positions[*long], &positions[*short]));
        }
    }
    savings
}

/// The position of each holding, or the refusal of the book: 1, 3, 4 to 8 or 23 to 26.
fn positions(book: &Sheet) -> Result<Vec<Position>, Refusal> {
    let count = book.side.len();
    let columns = [
        &book.kind,
        &book.issuer,
        &book.maturity,
        &book.value,
        &book.currency,
        &book.rating,
    ];
    if columns.iter().any(|column| column.len() != count) {
        return Err(Refusal::ColumnsDiffer);
    }
    if count > MOST_HOLDINGS {
        return Err(Refusal::TooManyHoldings);
    }
    let account = Account::of(book.head)?;
    let position = |number: usize| {
        let holding = book.row(number);
        in_range(&account, number as u64, &holding, 0)?;
        Ok(Position::of(&account, &holding))
    };
    (0..count).map(position).collect()
}
