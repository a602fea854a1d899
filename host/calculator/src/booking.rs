//! The plain bookings: the papers in ordinary Rust, in place on the same bytes as the exported functions.

use margin_host::{Head, Refusal, Row};

use crate::article::{Account, Position};
use crate::dates::is_date;
use crate::plain::{HIGHEST_VALUE, MOST_HOLDINGS, in_range};

/// An order to a book.
#[derive(Clone, Copy, Debug, PartialEq, Eq)]
pub enum Order {
    /// Adds a trade.
    Add(Row),
    /// Takes a trade.
    Take(Row),
    /// Moves to a date, YYYYMMDD.
    Move(u64),
}

/// The totals of the five periods.
type Totals = [u64; 5];

/// A record of the list, and where its value lies.
type Record = [u8; Row::LENGTH];
const VALUE: std::ops::Range<usize> = 32..40;

/// A lent book without fault.
struct Opened {
    account: Account,
    count: usize,
    totals: Totals,
    /// The first holding that is equal to the trade.
    equal: Option<usize>,
}

/// Adds a trade, and returns the refusal number, 0 for accepted. Leaves in the list, the totals and the answer what the
/// exported function must leave there.
#[must_use]
pub fn margin_add(
    list: &mut [u8],
    count: u64,
    totals: &mut [u8],
    date: u64,
    letter: u64,
    trade: &Row,
    answer: &mut [u8],
) -> u64 {
    let head = Head { date, letter };
    let outcome = add(list, count, totals, head, trade, answer.len());
    answered(outcome, answer)
}

/// Takes a trade, in the same way.
#[must_use]
pub fn margin_take(
    list: &mut [u8],
    count: u64,
    totals: &mut [u8],
    date: u64,
    letter: u64,
    trade: &Row,
    answer: &mut [u8],
) -> u64 {
    let head = Head { date, letter };
    let outcome = take(list, count, totals, head, trade, answer.len());
    answered(outcome, answer)
}

/// Moves to a date, in the same way.
#[must_use]
pub fn margin_move(
    list: &[u8],
    count: u64,
    totals: &mut [u8],
    date: u64,
    letter: u64,
    to: u64,
    answer: &mut [u8],
) -> u64 {
    let head = Head { date, letter };
    let outcome = move_to(list, count, totals, head, to, answer.len());
    answered(outcome, answer)
}

fn answered(outcome: Result<usize, Refusal>, answer: &mut [u8]) -> u64 {
    let (number, first) = match outcome {
        Ok(count) => (0, count as u64),
        Err(refusal) => (refusal.number(), refusal.place()),
    };
    if let ([low, high, ..], _) = answer.as_chunks_mut::<8>() {
        *low = first.to_le_bytes();
        *high = [0; 8];
    }
    number
}

fn add(
    list: &mut [u8],
    count: u64,
    totals: &mut [u8],
    head: Head,
    trade: &Row,
    answer: usize,
) -> Result<usize, Refusal> {
    let records = list.as_chunks_mut().0;
    let book = open(records, count, totals, head, Some(trade), answer)?;
    described(&book.account, trade)?;
    let held = book.equal.map_or(0, |place| value_of(&records[place]));
    if trade.value == 0 || trade.value > HIGHEST_VALUE - held {
        return Err(Refusal::ValueOutOfRange { holding: 0 });
    }
    let mut count = book.count;
    match book.equal {
        Some(place) => set_value(&mut records[place], held + trade.value),
        None if count == MOST_HOLDINGS => return Err(Refusal::TooManyHoldings),
        None => {
            let place = records.get_mut(count).ok_or(Refusal::ListTooShort)?;
            *place = trade.to_bytes();
            count += 1;
        }
    }
    let (period, margin) = margin_of(&book.account, trade);
    store(totals, period, book.totals[period] + margin);
    Ok(count)
}

fn take(
    list: &mut [u8],
    count: u64,
    totals: &mut [u8],
    head: Head,
    trade: &Row,
    answer: usize,
) -> Result<usize, Refusal> {
    let records = list.as_chunks_mut().0;
    let book = open(records, count, totals, head, Some(trade), answer)?;
    described(&book.account, trade)?;
    let place = book.equal.ok_or(Refusal::TakenOutOfRange)?;
    let held = value_of(&records[place]);
    if trade.value == 0 || trade.value > held {
        return Err(Refusal::TakenOutOfRange);
    }
    let mut count = book.count;
    if trade.value == held {
        records.copy_within(place + 1..count, place);
        count -= 1;
    } else {
        set_value(&mut records[place], held - trade.value);
    }
    let (period, margin) = margin_of(&book.account, trade);
    store(totals, period, book.totals[period] - margin);
    Ok(count)
}

fn move_to(
    list: &[u8],
    count: u64,
    totals: &mut [u8],
    head: Head,
    to: u64,
    answer: usize,
) -> Result<usize, Refusal> {
    let records = list.as_chunks().0;
    let book = open(records, count, totals, head, None, answer)?;
    if !is_date(to) {
        return Err(Refusal::DateInvalid { holding: 0 });
    }
    if to <= head.date {
        return Err(Refusal::DateNotLater);
    }
    let account = Account::of(Head { date: to, ..head })?;
    let mut refigured = [0; 5];
    for (place, record) in records[..book.count].iter().enumerate() {
        let row = Row::from_bytes(*record);
        if row.maturity <= to {
            let holding = place as u64;
            return Err(Refusal::MaturityOutOfRange { holding });
        }
        let (period, margin) = margin_of(&account, &row);
        refigured[period] += margin;
    }
    for (period, total) in refigured.into_iter().enumerate() {
        store(totals, period, total);
    }
    Ok(book.count)
}

/// The lent book's refusals: 3, 2, 24, 26, each holding's own, and 27 for its totals.
fn open(
    records: &[Record],
    count: u64,
    totals: &[u8],
    head: Head,
    trade: Option<&Row>,
    answer: usize,
) -> Result<Opened, Refusal> {
    if count > MOST_HOLDINGS as u64 {
        return Err(Refusal::TooManyHoldings);
    }
    let count = count as usize;
    let (Some(records), ([first, second, third, fourth, fifth, ..], _), 16..) =
        (records.get(..count), totals.as_chunks(), answer)
    else {
        return Err(Refusal::ListTooShort);
    };
    let stored = [first, second, third, fourth, fifth].map(|total| u64::from_le_bytes(*total));
    let account = Account::of(head)?;
    let (mut figured, mut equal) = ([0; 5], None);
    for (place, record) in records.iter().enumerate() {
        let row = Row::from_bytes(*record);
        in_range(&account, place as u64, &row, 0)?;
        let (period, margin) = margin_of(&account, &row);
        figured[period] += margin;
        if equal.is_none() && trade.is_some_and(|trade| alike(&row, trade)) {
            equal = Some(place);
        }
    }
    if stored != figured {
        return Err(Refusal::StoredTotalsDiffer);
    }
    Ok(Opened {
        account,
        count,
        totals: stored,
        equal,
    })
}

/// Refusals 4 to 6, 24, 7, 23 and 25 of a trade's description, in this order: those of a holding of one cent.
fn described(account: &Account, trade: &Row) -> Result<(), Refusal> {
    in_range(account, 0, &Row { value: 1, ..*trade }, 0)
}

/// Whether a holding is equal to a trade in all but the value.
#[inline]
fn alike(row: &Row, trade: &Row) -> bool {
    let value = trade.value;
    Row { value, ..*row } == *trade
}

/// The period of a row without fault, from 0, and its margin alone.
#[inline]
fn margin_of(account: &Account, row: &Row) -> (usize, u64) {
    let position = Position::of(account, row);
    (usize::from(position.period), position.rate * row.value)
}

fn value_of(record: &Record) -> u64 {
    Row::from_bytes(*record).value
}

fn set_value(record: &mut Record, value: u64) {
    record[VALUE].copy_from_slice(&value.to_le_bytes());
}

fn store(totals: &mut [u8], period: usize, total: u64) {
    totals.as_chunks_mut().0[period] = total.to_le_bytes();
}
