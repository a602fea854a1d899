//! The check with its answer as a `Result`: on a book and a proposal, and on columns of numbers.

use crate::{Book, Columns, Head, Proposal, Refusal, raw};

/// The figures of an accepted proposal.
#[derive(Clone, Copy, Debug, Default, PartialEq, Eq, Hash, PartialOrd, Ord)]
pub struct Figures {
    /// Total margin in units of 1/146,000 cent.
    pub units: u64,
    /// Total margin in cents, rounded up once.
    pub cents: u64,
}

/// What the check says to an accepted proposal.
#[derive(Clone, Debug, Default, PartialEq, Eq, Hash)]
pub struct Accepted {
    /// The least margin of the book.
    pub figures: Figures,
    /// What the lines leave of each holding's value, in cents.
    pub remainder: Vec<u64>,
    /// The holding numbers by margin of the remainder, largest first, ties by lower number.
    pub ranking: Vec<u64>,
}

/// Checks a proposal on a book.
///
/// The call needs less than 32 KiB of stack, whatever the size of the book: when tried with 256 holdings it
/// returned on a thread of 32 KiB and not on one of 30. The tests call it on a thread of 40 KiB.
///
/// # Errors
///
/// The first refusal in the check's order; 1 where there is not a price for each holding.
///
/// # Panics
///
/// If the linked archive breaks the contract that was proved, as only another archive can.
///
/// # Examples
///
/// ```
/// use margin_host::{
///     AccountKind, Book, Currency, Date, Holding, Issuer, Kind, Line, Proposal, Refusal, Side, check,
/// };
///
/// let date = Date::new(2025, 1, 1).expect("a day");
/// let coupon = Holding {
///     side: Side::Long,
///     kind: Kind::Coupon,
///     issuer: Issuer::Ontario,
///     maturity: Date::new(2030, 6, 24).expect("a day"),
///     value: 1_000,
///     currency: Currency::Cad,
///     rating: None,
/// };
/// let residual = Holding { side: Side::Short, kind: Kind::Residual, value: 400, ..coupon };
/// let book = Book::new(date, AccountKind::Client, [coupon, residual]);
/// let mut proposal = Proposal::new([0, 17_520], [Line { long: 0, short: 1, amount: 400 }]);
/// let accepted = check(&book, &proposal)?;
/// assert_eq!(accepted.figures.cents, 36);
/// assert_eq!((accepted.remainder, accepted.ranking), (vec![600, 0], vec![0, 1]));
///
/// proposal.lines[0].amount = 401;
/// assert_eq!(check(&book, &proposal), Err(Refusal::AmountAboveRemainder { line: 0 }));
/// # Ok::<(), Refusal>(())
/// ```
pub fn check(book: &Book, proposal: &Proposal) -> Result<Accepted, Refusal> {
    accepted(Head::of(book), &Columns::of(book, proposal))
}

/// What the check says to columns, with lists of their length.
pub(crate) fn accepted(head: Head, columns: &Columns<Vec<u64>>) -> Result<Accepted, Refusal> {
    let count = columns.side.len();
    let (mut remainder, mut ranking) = (vec![0; count], vec![0; count]);
    let figures = check_columns(head, columns, &mut remainder, &mut ranking)?;
    Ok(Accepted {
        figures,
        remainder,
        ranking,
    })
}

/// Checks columns of numbers under a head, in place and whatever they hold. Dates are the numbers YYYYMMDD.
///
/// On acceptance the first entries of `remainder` and `ranking`, one for each holding, are written, as in
/// [`Accepted`]. Entries past them, and on a refusal both lists, are kept. It needs as much stack as
/// [`check()`].
///
/// # Errors
///
/// The first refusal in the check's order.
///
/// # Panics
///
/// If the linked archive breaks the contract that was proved, as only another archive can.
///
/// # Examples
///
/// ```
/// use margin_host::{Columns, Figures, Head, Refusal, check_columns};
///
/// let mut columns: Columns<&[u64]> = Columns {
///     side: &[0, 1],
///     kind: &[1, 2],
///     issuer: &[7, 9],
///     maturity: &[2030_06_24, 2030_06_24],
///     value: &[1_000, 400],
///     price: &[0, 17_520],
///     currency: &[0, 0],
///     rating: &[2, 2],
///     long: &[0],
///     short: &[1],
///     amount: &[400],
/// };
/// let head = Head { date: 2025_01_01, letter: 0 };
/// let (mut remainder, mut ranking) = ([0; 2], [0; 2]);
/// let figures = check_columns(head, &columns, &mut remainder, &mut ranking);
/// assert_eq!(figures, Ok(Figures { units: 5_256_000, cents: 36 }));
/// assert_eq!((remainder, ranking), ([600, 0], [0, 1]));
///
/// columns.issuer = &[7, 13];
/// let refused = check_columns(head, &columns, &mut remainder, &mut ranking);
/// assert_eq!(refused, Err(Refusal::IssuerUnknown { holding: 1 }));
/// ```
pub fn check_columns<C: AsRef<[u64]>>(
    head: Head,
    columns: &Columns<C>,
    remainder: &mut [u64],
    ranking: &mut [u64],
) -> Result<Figures, Refusal> {
    let Head { date, letter } = head;
    let columns = columns.each_ref().map(|column| bytes(column.as_ref()));
    let (remainder, ranking) = (bytes_mut(remainder), bytes_mut(ranking));
    let mut answer = [0; 16];
    let number = raw::margin_check(date, letter, &columns, remainder, ranking, &mut answer);
    let (first, second) = halves(&answer);
    if number == 0 {
        return Ok(Figures {
            units: first,
            cents: second,
        });
    }
    match Refusal::from_parts(number, first, second) {
        Some(refusal) if matches!(number, 1..=17 | 23..=26) => Err(refusal),
        _ => unreachable!(
            "the check's contract is proved: it returns 0 to 17 or 23 to 26, and a place only \
             where the number has one"
        ),
    }
}

/// The two numbers of an answer.
pub(crate) fn halves(answer: &[u8; 16]) -> (u64, u64) {
    let both = u128::from_le_bytes(*answer);
    (both as u64, (both >> 64) as u64)
}

#[cfg(target_endian = "big")]
compile_error!("numbers are lent as their own bytes, which must be those of little-endian numbers");

pub(crate) fn bytes(numbers: &[u64]) -> &[u8] {
    // SAFETY: the same memory for the same time; a byte needs no alignment, and a number has no padding.
    unsafe { std::slice::from_raw_parts(numbers.as_ptr().cast(), size_of_val(numbers)) }
}

pub(crate) fn bytes_mut(numbers: &mut [u64]) -> &mut [u8] {
    // SAFETY: as in `bytes`, and borrowed alone; any eight bytes are a number.
    unsafe { std::slice::from_raw_parts_mut(numbers.as_mut_ptr().cast(), size_of_val(numbers)) }
}
