//! The plain check: the papers in ordinary Rust, on the same bytes as the exported check.

use std::cmp::Reverse;

use margin_host::{Columns, Figures, Head, Refusal};

use crate::article::{Account, Position, pair_rate};
use crate::cover::cover;
use crate::dates::is_date;
use crate::{FIRST_CORPORATION, NOT_RATED, Row};

pub(crate) const MOST_HOLDINGS: usize = 256;
pub(crate) const MOST_LINES: usize = 512;
const HIGHEST_GOVERNMENT: u64 = 12;
const HIGHEST_CORPORATION: u64 = FIRST_CORPORATION + MOST_HOLDINGS as u64 - 1;
const HIGHEST_CURRENCY: u64 = 2;
pub(crate) const HIGHEST_VALUE: u64 = 100_000_000_000;
const HIGHEST_PRICE: u64 = 43_800;
const UNITS_OF_A_CENT: u64 = 146_000;

/// A holding without fault, with what is worked out once for it.
pub(crate) struct Entry {
    pub(crate) position: Position,
    pub(crate) price: u64,
    pub(crate) short: bool,
    value: u64,
    left: u64,
}

/// What the lines come to.
#[derive(Default)]
struct Paired {
    saving: u64,
    units: u64,
}

/// Returns the refusal number, 0 for accepted, and leaves in the lists what the check must leave there.
#[must_use]
pub fn margin_check(
    date: u64,
    letter: u64,
    columns: &Columns<&[u8]>,
    remainder: &mut [u8],
    ranking: &mut [u8],
    answer: &mut [u8],
) -> u64 {
    let head = Head { date, letter };
    let (number, first, second) = match judge(head, columns, remainder, ranking, answer.len()) {
        Ok(figures) => (0, figures.units, figures.cents),
        Err(refusal) => (refusal.number(), refusal.place(), refusal.second()),
    };
    if let ([low, high, ..], _) = answer.as_chunks_mut::<8>() {
        *low = first.to_le_bytes();
        *high = second.to_le_bytes();
    }
    number
}

fn judge(
    head: Head,
    columns: &Columns<&[u8]>,
    remainder: &mut [u8],
    ranking: &mut [u8],
    answer: usize,
) -> Result<Figures, Refusal> {
    lengths(columns, remainder.len(), ranking.len(), answer)?;
    let account = Account::of(head)?;
    let mut entries = holdings(&account, columns)?;
    let paired = lines(columns, &mut entries)?;
    cover(&entries)?;
    let priced: u64 = entries.iter().map(|entry| entry.price * entry.value).sum();
    if priced != paired.saving {
        return Err(Refusal::TotalsDiffer);
    }
    let unpaired = write_lists(&entries, remainder, ranking);
    let units = paired.units + unpaired;
    Ok(Figures {
        units,
        cents: units.div_ceil(UNITS_OF_A_CENT),
    })
}

/// Refusals 1, 3, 9 and 2, in this order.
fn lengths(
    c: &Columns<&[u8]>,
    remainder: usize,
    ranking: usize,
    answer: usize,
) -> Result<(), Refusal> {
    let of_holdings = [
        c.side, c.kind, c.issuer, c.maturity, c.value, c.price, c.currency, c.rating,
    ]
    .map(<[u8]>::len);
    let of_lines = [c.long, c.short, c.amount].map(<[u8]>::len);
    let bytes = of_holdings[0];
    let line_bytes = of_lines[0];
    let alike = of_holdings.iter().all(|length| *length == bytes)
        && of_lines.iter().all(|length| *length == line_bytes);
    if !alike || bytes % 8 != 0 || line_bytes % 8 != 0 {
        Err(Refusal::ColumnsDiffer)
    } else if bytes / 8 > MOST_HOLDINGS {
        Err(Refusal::TooManyHoldings)
    } else if line_bytes / 8 > MOST_LINES {
        Err(Refusal::TooManyLines)
    } else if remainder < bytes || ranking < bytes || answer < 16 {
        Err(Refusal::ListTooShort)
    } else {
        Ok(())
    }
}

/// Refusals 4 to 6, 24, 7, 8, 23, 25 and 10 of each holding in turn.
fn holdings(account: &Account, columns: &Columns<&[u8]>) -> Result<Vec<Entry>, Refusal> {
    let sides = numbers(columns.side);
    let mut entries = Vec::with_capacity(sides.len());
    let others = numbers(columns.kind)
        .zip(numbers(columns.issuer))
        .zip(numbers(columns.maturity))
        .zip(numbers(columns.value))
        .zip(numbers(columns.price))
        .zip(numbers(columns.currency))
        .zip(numbers(columns.rating));
    for (number, (side, ((((((kind, issuer), maturity), value), price), currency), rating))) in
        sides.zip(others).enumerate()
    {
        let holding = Row {
            side,
            kind,
            issuer,
            maturity,
            value,
            currency,
            rating,
        };
        in_range(account, number as u64, &holding, price)?;
        entries.push(Entry {
            position: Position::of(account, &holding),
            price,
            short: side == 1,
            value,
            left: value,
        });
    }
    Ok(entries)
}

/// Refusals 4 to 6, 24, 7, 8, 23, 25 and 10 of one holding, in this order.
#[inline]
pub(crate) fn in_range(
    account: &Account,
    number: u64,
    holding: &Row,
    price: u64,
) -> Result<(), Refusal> {
    let corporate = (FIRST_CORPORATION..=HIGHEST_CORPORATION).contains(&holding.issuer);
    let refusal = if holding.side > 1 {
        Refusal::SideUnknown { holding: number }
    } else if holding.kind > 2 {
        Refusal::KindUnknown { holding: number }
    } else if holding.issuer > HIGHEST_GOVERNMENT && !corporate {
        Refusal::IssuerUnknown { holding: number }
    } else if !is_date(holding.maturity) {
        Refusal::DateInvalid { holding: number }
    } else if !account.holds(holding.maturity) {
        Refusal::MaturityOutOfRange { holding: number }
    } else if !(1..=HIGHEST_VALUE).contains(&holding.value) {
        Refusal::ValueOutOfRange { holding: number }
    } else if holding.currency > HIGHEST_CURRENCY {
        Refusal::CurrencyUnknown { holding: number }
    } else if holding.rating > NOT_RATED || corporate == (holding.rating == NOT_RATED) {
        Refusal::RatingInvalid { holding: number }
    } else if price > HIGHEST_PRICE {
        Refusal::PriceTooHigh { holding: number }
    } else {
        return Ok(());
    };
    Err(refusal)
}

/// Refusals 11 to 15 of each line in turn; takes each amount off what is left of both legs.
fn lines(columns: &Columns<&[u8]>, entries: &mut [Entry]) -> Result<Paired, Refusal> {
    let mut paired = Paired::default();
    let legs = numbers(columns.long).zip(numbers(columns.short));
    for (number, ((long, short), amount)) in legs.zip(numbers(columns.amount)).enumerate() {
        let line = number as u64;
        let count = entries.len() as u64;
        if long >= count || short >= count {
            return Err(Refusal::NotInBook { line });
        }
        let (first, second) = (&entries[long as usize], &entries[short as usize]);
        if first.short || !second.short {
            return Err(Refusal::WrongSide { line });
        }
        let Some(rate) = pair_rate(&first.position, &second.position) else {
            return Err(Refusal::PairNotAllowed { line });
        };
        if amount == 0 {
            return Err(Refusal::AmountZero { line });
        }
        if amount > first.left || amount > second.left {
            return Err(Refusal::AmountAboveRemainder { line });
        }
        paired.units += rate * amount;
        paired.saving += (first.position.rate + second.position.rate - rate) * amount;
        entries[long as usize].left -= amount;
        entries[short as usize].left -= amount;
    }
    Ok(paired)
}

/// Writes the remainders and the ranking, and gives the margin of all remainders.
fn write_lists(entries: &[Entry], remainder: &mut [u8], ranking: &mut [u8]) -> u64 {
    let mut margins = Vec::with_capacity(entries.len());
    let mut total = 0;
    for (number, entry) in entries.iter().enumerate() {
        let margin = entry.position.rate * entry.left;
        margins.push((Reverse(margin), number as u64));
        total += margin;
    }
    margins.sort_unstable();
    let slots = remainder.as_chunks_mut::<8>().0;
    for (slot, entry) in slots.iter_mut().zip(entries) {
        *slot = entry.left.to_le_bytes();
    }
    let slots = ranking.as_chunks_mut::<8>().0;
    for (slot, (_, number)) in slots.iter_mut().zip(&margins) {
        *slot = number.to_le_bytes();
    }
    total
}

fn numbers(column: &[u8]) -> impl ExactSizeIterator<Item = u64> + '_ {
    column
        .as_chunks::<8>()
        .0
        .iter()
        .map(|bytes| u64::from_le_bytes(*bytes))
}
