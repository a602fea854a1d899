//! The file's reader with its answer as a `Result`, the LEIs of a file, and reading and checking in one call.

use crate::check::{accepted, bytes_mut, halves};
use crate::{Accepted, Book, Columns, Head, Issuer, Lei, Proposal, Refusal, raw};

/// Entries that no file exceeds.
const MOST_HOLDINGS: usize = 256;
const MOST_LINES: usize = 512;

/// Reads a file into a book and a proposal. Their ranges are left to the check, but a book has no room for a
/// date that is none.
///
/// # Errors
///
/// The first refusal in the reader's order: 18; 22 for an empty file; each record in turn 19, 20, 21, 25, 22,
/// then 3 or 9. After these 24, as the check would give it if nothing else were wrong, for a valuation date or
/// else the first maturity that is no day of the years 1900 to 2299.
///
/// # Panics
///
/// If the linked archive breaks the contract that was proved, as only another archive can.
///
/// # Examples
///
/// ```
/// use margin_host::{AccountKind, Date, Issuer, Line, Refusal, read};
///
/// let text = "D,2025-01-01,P,,,,,,\r\n\
///             H,L,C,ON,2030-06-24,1000,0,CAD,\r\n\
///             H,S,R,QC,2030-06-24,400,17520,CAD,\r\n\
///             P,0,1,400,,,,,\r\n";
/// let (book, proposal) = read(text.as_bytes())?;
/// assert_eq!(Some(book.date), Date::new(2025, 1, 1));
/// assert_eq!(book.account, AccountKind::Participant);
/// assert_eq!(book.holdings[1].issuer, Issuer::Quebec);
/// assert_eq!(proposal.prices, vec![0, 17_520]);
/// assert_eq!(proposal.lines, vec![Line { long: 0, short: 1, amount: 400 }]);
///
/// let refused = read(text.replace("QC", "YT").as_bytes());
/// assert_eq!(refused, Err(Refusal::FieldNotOfItsSort { record: 2 }));
/// # Ok::<(), Refusal>(())
/// ```
pub fn read(text: &[u8]) -> Result<(Book, Proposal), Refusal> {
    let (head, columns) = read_columns(text)?;
    let corporate = |issuer: &u64| *issuer >= Issuer::FIRST_CORPORATION;
    let leis = match columns.issuer.iter().any(corporate) {
        true => read_leis(text)?,
        false => Vec::new(),
    };
    columns.book_and_proposal(head, &leis)
}

/// Reads a file into its head and columns of numbers, whose ranges are all left to the check. A corporation has a
/// number from 100, by first appearance in the file; [`read_leis`] has the LEIs.
///
/// # Errors
///
/// The first refusal in the reader's order: 18; 22 for an empty file; each record in turn 19, 20, 21, 25, 22,
/// then 3 or 9.
///
/// # Panics
///
/// If the linked archive breaks the contract that was proved, as only another archive can.
///
/// # Examples
///
/// ```
/// use margin_host::{Head, Refusal, check_columns, read_columns};
///
/// let text = "D,2025-01-01,P,,,,,,\r\nH,L,B,ON,2025-02-30,1000,0,CAD,\r\n";
/// let (head, columns) = read_columns(text.as_bytes())?;
/// assert_eq!(head, Head { date: 2025_01_01, letter: 0 });
/// assert_eq!(columns.maturity, vec![2025_02_30]);
/// let refused = check_columns(head, &columns, &mut [0], &mut [0]);
/// assert_eq!(refused, Err(Refusal::DateInvalid { holding: 0 }));
/// # Ok::<(), Refusal>(())
/// ```
pub fn read_columns(text: &[u8]) -> Result<(Head, Columns<Vec<u64>>), Refusal> {
    let mut head = [0; 2];
    let mut columns = Columns::by_group(vec![0; MOST_HOLDINGS], vec![0; MOST_LINES]);
    let mut lists = columns.each_mut().map(|list| bytes_mut(list));
    let mut answer = [0; 16];
    let number = raw::margin_read(text, bytes_mut(&mut head), &mut lists, &mut answer);
    let (first, second) = halves(&answer);
    if number == 0 {
        let counts = Columns::by_group(first, second).into_array();
        for (list, count) in columns.each_mut().into_array().into_iter().zip(counts) {
            list.truncate(count as usize);
        }
        let [date, letter] = head;
        return Ok((Head { date, letter }, columns));
    }
    Err(refused(number, first, second))
}

/// Reads the LEIs of the corporations of a file, in the order of their numbers from 100 in the column of issuers
/// that [`read_columns`] gives.
///
/// # Errors
///
/// As [`read_columns`].
///
/// # Panics
///
/// If the linked archive breaks the contract that was proved, as only another archive can.
///
/// # Examples
///
/// ```
/// use margin_host::{Refusal, read_columns, read_leis};
///
/// let text = "D,2025-01-01,P,,,,,,\r\n\
///             H,L,B,5493001KJTIIGC8Y1R12,2030-06-24,1000,0,CAD,Y\r\n\
///             H,L,B,ON,2030-06-24,1000,0,CAD,\r\n\
///             H,S,C,7ZW8QJWVPR4P1J1KQY45,2030-06-24,1000,0,CAD,N\r\n";
/// let (_, columns) = read_columns(text.as_bytes())?;
/// assert_eq!(columns.issuer, vec![100, 7, 101]);
/// let leis = read_leis(text.as_bytes())?;
/// assert_eq!(leis[1].to_string(), "7ZW8QJWVPR4P1J1KQY45");
///
/// let refused = read_leis(text.replace("KQY45", "KQY46").as_bytes());
/// assert_eq!(refused, Err(Refusal::LeiOrRatingInvalid { record: 3 }));
/// # Ok::<(), Refusal>(())
/// ```
pub fn read_leis(text: &[u8]) -> Result<Vec<Lei>, Refusal> {
    let mut leis = [0; Lei::LENGTH * MOST_HOLDINGS];
    let mut answer = [0; 16];
    let number = raw::margin_leis(text, &mut leis, &mut answer);
    let (first, second) = halves(&answer);
    if number != 0 {
        return Err(refused(number, first, second));
    }
    let written = leis.chunks(Lei::LENGTH).take(first as usize);
    let leis = written.map(Lei::from_bytes).collect::<Option<Vec<Lei>>>();
    Ok(leis.expect("the reader's contract is proved: it knows each LEI"))
}

/// The refusal that the reader gives where it has room for every file.
fn refused(number: u64, first: u64, second: u64) -> Refusal {
    match Refusal::from_reader_parts(number, first, second) {
        Some(refusal) if number != 2 => refusal,
        _ => unreachable!(
            "the reader's contract is proved: with room for every file it returns 0, 3, 9, 18 to 22 \
             or 25, and a place only where the number has one"
        ),
    }
}

/// Reads a file and checks what it holds.
///
/// # Errors
///
/// The reader's refusal, or else the check's.
///
/// # Panics
///
/// If the linked archive breaks the contract that was proved, as only another archive can.
///
/// # Examples
///
/// ```
/// use margin_host::{Refusal, check_file};
///
/// let text = "D,2025-01-01,P,,,,,,\r\n\
///             H,L,C,ON,2030-06-24,1000,0,CAD,\r\n\
///             H,S,R,QC,2030-06-24,400,17520,CAD,\r\n\
///             P,0,1,400,,,,,\r\n";
/// assert_eq!(check_file(text.as_bytes())?.figures.cents, 36);
///
/// let refused = check_file(text.replace("17520", "17519").as_bytes());
/// assert_eq!(refused, Err(Refusal::PairNotCovered { long: 0, short: 1 }));
/// # Ok::<(), Refusal>(())
/// ```
pub fn check_file(text: &[u8]) -> Result<Accepted, Refusal> {
    let (head, columns) = read_columns(text)?;
    accepted(head, &columns)
}
