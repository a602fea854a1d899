//! The exported check, the exported reader and the exported bookings on byte slices of eight-byte little-endian
//! numbers, and the LEIs of a file.

use crate::{Columns, Row};

unsafe extern "C" {
    // Fourteen slices, each a pointer and then its length in bytes.
    #[link_name = "margin_read"]
    fn exported_read(
        text: *const u8,
        text_length: usize,
        head: *mut u8,
        head_length: usize,
        side: *mut u8,
        side_length: usize,
        kind: *mut u8,
        kind_length: usize,
        issuer: *mut u8,
        issuer_length: usize,
        maturity: *mut u8,
        maturity_length: usize,
        value: *mut u8,
        value_length: usize,
        price: *mut u8,
        price_length: usize,
        currency: *mut u8,
        currency_length: usize,
        rating: *mut u8,
        rating_length: usize,
        long: *mut u8,
        long_length: usize,
        short: *mut u8,
        short_length: usize,
        amount: *mut u8,
        amount_length: usize,
        answer: *mut u8,
        answer_length: usize,
    ) -> u64;

    // Three slices, each a pointer and then its length in bytes.
    #[link_name = "margin_leis"]
    fn exported_leis(
        text: *const u8,
        text_length: usize,
        leis: *mut u8,
        leis_length: usize,
        answer: *mut u8,
        answer_length: usize,
    ) -> u64;

    // The valuation date, the account's letter, and fourteen slices, each a pointer and then its length in bytes.
    #[link_name = "margin_check"]
    fn exported_check(
        date: u64,
        letter: u64,
        side: *const u8,
        side_length: usize,
        kind: *const u8,
        kind_length: usize,
        issuer: *const u8,
        issuer_length: usize,
        maturity: *const u8,
        maturity_length: usize,
        value: *const u8,
        value_length: usize,
        price: *const u8,
        price_length: usize,
        currency: *const u8,
        currency_length: usize,
        rating: *const u8,
        rating_length: usize,
        long: *const u8,
        long_length: usize,
        short: *const u8,
        short_length: usize,
        amount: *const u8,
        amount_length: usize,
        remainder: *mut u8,
        remainder_length: usize,
        ranking: *mut u8,
        ranking_length: usize,
        answer: *mut u8,
        answer_length: usize,
    ) -> u64;

    // A book's list, its count, its totals, its date and its letter, the trade's numbers, and the answer. Each slice
    // is a pointer and then its length in bytes.
    #[link_name = "margin_add"]
    fn exported_add(
        list: *mut u8,
        list_length: usize,
        count: u64,
        totals: *mut u8,
        totals_length: usize,
        date: u64,
        letter: u64,
        side: u64,
        kind: u64,
        issuer: u64,
        maturity: u64,
        currency: u64,
        rating: u64,
        value: u64,
        answer: *mut u8,
        answer_length: usize,
    ) -> u64;

    // The same.
    #[link_name = "margin_take"]
    fn exported_take(
        list: *mut u8,
        list_length: usize,
        count: u64,
        totals: *mut u8,
        totals_length: usize,
        date: u64,
        letter: u64,
        side: u64,
        kind: u64,
        issuer: u64,
        maturity: u64,
        currency: u64,
        rating: u64,
        value: u64,
        answer: *mut u8,
        answer_length: usize,
    ) -> u64;

    // A book's list, its count, its totals, its date and its letter, the new date, and the answer.
    #[link_name = "margin_move"]
    fn exported_move(
        list: *const u8,
        list_length: usize,
        count: u64,
        totals: *mut u8,
        totals_length: usize,
        date: u64,
        letter: u64,
        to: u64,
        answer: *mut u8,
        answer_length: usize,
    ) -> u64;
}

/// Calls the check on a valuation date, the number YYYYMMDD, and the account's letter, 0 for an approved participant
/// and 1 for a client, and returns the refusal number, 0 for accepted.
///
/// An answer slice of 16 bytes or more gets units and cents, or the two places; a shorter one is kept.
/// On acceptance the remainder and the ranking get one entry for each holding; a refusal keeps both.
///
/// It needs as much stack as [`check()`](crate::check()).
///
/// ```
/// use margin_host::{Columns, raw};
///
/// // One Canada bond of one cent and one day, without a line.
/// let number = |number: u64| number.to_le_bytes();
/// let (zero, one, two, maturity) = (number(0), number(1), number(2), number(2025_01_02));
/// let mut columns: Columns<&[u8]> = Columns::by_group(&zero, &[]);
/// (columns.maturity, columns.value, columns.rating) = (&maturity, &one, &two);
/// let (mut remainder, mut ranking, mut answer) = ([0; 8], [9; 8], [0; 16]);
/// let mut check = |date, letter| {
///     raw::margin_check(date, letter, &columns, &mut remainder, &mut ranking, &mut answer)
/// };
/// assert_eq!(check(2025_01_02, 0), 7);
/// assert_eq!(check(2025_01_01, 2), 26);
/// assert_eq!(check(2025_01_01, 0), 0);
/// assert_eq!((remainder, ranking), (one, zero));
/// assert_eq!(answer.as_chunks().0, [number(4), number(1)]);
/// ```
#[must_use]
pub fn margin_check(
    date: u64,
    letter: u64,
    columns: &Columns<&[u8]>,
    remainder: &mut [u8],
    ranking: &mut [u8],
    answer: &mut [u8],
) -> u64 {
    let c = columns;
    // SAFETY: each pointer comes from a slice that is borrowed for the whole call, beside that slice's
    // own length. The three lists are borrowed alone, so nothing else refers to them meanwhile. The check
    // presumes nothing of the bytes and keeps no pointer.
    #[rustfmt::skip]
    let number = unsafe {
        exported_check(
            date,
            letter,
            c.side.as_ptr(), c.side.len(),
            c.kind.as_ptr(), c.kind.len(),
            c.issuer.as_ptr(), c.issuer.len(),
            c.maturity.as_ptr(), c.maturity.len(),
            c.value.as_ptr(), c.value.len(),
            c.price.as_ptr(), c.price.len(),
            c.currency.as_ptr(), c.currency.len(),
            c.rating.as_ptr(), c.rating.len(),
            c.long.as_ptr(), c.long.len(),
            c.short.as_ptr(), c.short.len(),
            c.amount.as_ptr(), c.amount.len(),
            remainder.as_mut_ptr(), remainder.len(),
            ranking.as_mut_ptr(), ranking.len(),
            answer.as_mut_ptr(), answer.len(),
        )
    };
    number
}

/// Calls the reader and returns the refusal number, 0 for a file that was read.
///
/// A file that is read goes to the front of the lists: its valuation date and its account's letter to the first two
/// entries of the head, and of the columns eight get an entry for each holding and three one for each line. What
/// comes after is kept, and a refusal keeps the head and all eleven. An answer slice of 16 bytes or more gets the
/// number of holdings and the number of lines, or the place and 0; a shorter one is kept.
///
/// The call needs less than 56 KiB of stack, whatever the size of the file: when tried with 256 holdings and
/// 512 lines, a thread of 56 KiB was enough, and one of 54 KiB was not.
///
/// ```
/// use margin_host::{Columns, raw};
///
/// let mut room = Columns::by_group(vec![0; 8], vec![0; 8]);
/// let mut columns = room.each_mut().map(Vec::as_mut_slice);
/// let (mut head, mut answer) = ([0; 16], [0; 16]);
/// let text = b"D,2025-01-01,C,,,,,,\r\nH,S,B,US,2030-06-24,600000,5840,USD,\r\n";
/// assert_eq!(raw::margin_read(text, &mut head, &mut columns, &mut answer), 0);
/// assert_eq!(head.as_chunks().0, [2025_01_01_u64.to_le_bytes(), 1_u64.to_le_bytes()]);
/// assert_eq!(columns.maturity, 2030_06_24_u64.to_le_bytes());
/// assert_eq!(columns.currency, 1_u64.to_le_bytes());
/// assert_eq!(columns.rating, 2_u64.to_le_bytes());
/// assert_eq!(answer.as_chunks().0, [1_u64.to_le_bytes(), [0; 8]]);
///
/// assert_eq!(raw::margin_read(b"\r\n", &mut head, &mut columns, &mut answer), 20);
/// ```
#[must_use]
pub fn margin_read(
    text: &[u8],
    head: &mut [u8],
    columns: &mut Columns<&mut [u8]>,
    answer: &mut [u8],
) -> u64 {
    let c = columns;
    // SAFETY: each pointer comes from a slice that is borrowed for the whole call, beside that slice's
    // own length. The thirteen lists are borrowed alone, so nothing else refers to them meanwhile. The reader
    // presumes nothing of the bytes and keeps no pointer.
    #[rustfmt::skip]
    let number = unsafe {
        exported_read(
            text.as_ptr(), text.len(),
            head.as_mut_ptr(), head.len(),
            c.side.as_mut_ptr(), c.side.len(),
            c.kind.as_mut_ptr(), c.kind.len(),
            c.issuer.as_mut_ptr(), c.issuer.len(),
            c.maturity.as_mut_ptr(), c.maturity.len(),
            c.value.as_mut_ptr(), c.value.len(),
            c.price.as_mut_ptr(), c.price.len(),
            c.currency.as_mut_ptr(), c.currency.len(),
            c.rating.as_mut_ptr(), c.rating.len(),
            c.long.as_mut_ptr(), c.long.len(),
            c.short.as_mut_ptr(), c.short.len(),
            c.amount.as_mut_ptr(), c.amount.len(),
            answer.as_mut_ptr(), answer.len(),
        )
    };
    number
}

/// Gets the LEIs of the corporations of a file, and returns the refusal number that the reader gives it, 0 for a
/// file that is read.
///
/// Of such a file the LEIs go to the front of the list, 20 bytes each, in the order of their numbers from 100 in
/// the column of issuers: 5,120 bytes are enough for every file, and 2 is returned where there are too few. What
/// comes after is kept, and a refusal keeps the whole list. An answer slice of 16 bytes or more gets the number
/// of LEIs and 0, or the place and 0; a shorter one is kept, and is 2 for a file that is read.
///
/// It needs as much stack as [`margin_read`].
///
/// ```
/// use margin_host::raw;
///
/// let text = b"D,2025-01-01,P,,,,,,\r\n\
///              H,L,B,5493001KJTIIGC8Y1R12,2030-06-24,600000,0,CAD,Y\r\n\
///              H,S,C,5493001KJTIIGC8Y1R12,2030-06-24,600000,0,CAD,N\r\n";
/// let (mut leis, mut answer) = ([0; 40], [0; 16]);
/// assert_eq!(raw::margin_leis(text, &mut leis, &mut answer), 0);
/// assert_eq!(answer.as_chunks().0, [1_u64.to_le_bytes(), [0; 8]]);
/// assert_eq!(leis[..20], *b"5493001KJTIIGC8Y1R12");
/// assert_eq!(leis[20..], [0; 20]);
/// ```
#[must_use]
pub fn margin_leis(text: &[u8], leis: &mut [u8], answer: &mut [u8]) -> u64 {
    // SAFETY: each pointer comes from a slice that is borrowed for the whole call, beside that slice's
    // own length. The two lists are borrowed alone, so nothing else refers to them meanwhile. The function
    // presumes nothing of the bytes and keeps no pointer.
    #[rustfmt::skip]
    let number = unsafe {
        exported_leis(
            text.as_ptr(), text.len(),
            leis.as_mut_ptr(), leis.len(),
            answer.as_mut_ptr(), answer.len(),
        )
    };
    number
}

/// Adds a trade to a book in place, and returns the refusal number, 0 for accepted.
///
/// The book is a list of records, each a [`Row`] of [`Row::LENGTH`] bytes, of which the first `count` are its holdings;
/// five totals of the holdings' margins alone, in units, one for each period; its valuation date, YYYYMMDD; and its
/// account's letter, 0 for an approved participant and 1 for a client. Bytes of the list that make no whole record, and
/// bytes of the totals from the 40th on, belong to nothing and are kept.
///
/// The value goes to the first holding equal in side, kind, issuer, maturity, currency and rating, or else the trade
/// joins at the end. Records past the holdings are kept, and a refusal keeps the list and the totals.
/// An answer slice of 16 bytes or more gets the new count and 0, or the place and 0; a shorter one is kept.
///
/// The call needs less than 16 KiB of stack: the tests make it on a thread of that size, with 256 holdings.
///
/// ```
/// use margin_host::{Row, raw};
///
/// let bond = Row {
///     side: 0,
///     kind: 0,
///     issuer: 0,
///     maturity: 2026_01_01,
///     value: 1_000,
///     currency: 0,
///     rating: 2,
/// };
/// let (mut list, mut totals, mut answer) = ([0; 56], [0; 40], [0; 16]);
/// let mut add = |count, trade: Row| {
///     raw::margin_add(&mut list, count, &mut totals, 2025_01_01, 0, &trade, &mut answer)
/// };
/// assert_eq!(add(0, bond), 0);
/// assert_eq!(add(1, Row { value: 500, ..bond }), 0);
/// assert_eq!(add(1, Row { value: 0, ..bond }), 8);
/// assert_eq!(add(1, Row { side: 1, ..bond }), 2);
/// assert_eq!(list, Row { value: 1_500, ..bond }.to_bytes());
/// assert_eq!(totals[..8], (4 * 365 * 1_500_u64).to_le_bytes());
/// ```
#[must_use]
pub fn margin_add(
    list: &mut [u8],
    count: u64,
    totals: &mut [u8],
    date: u64,
    letter: u64,
    trade: &Row,
    answer: &mut [u8],
) -> u64 {
    let t = trade;
    // SAFETY: each pointer comes from a slice that is borrowed alone for the whole call, beside that slice's own length,
    // so nothing else refers to it meanwhile. The function presumes nothing of the bytes and the numbers and keeps no
    // pointer.
    #[rustfmt::skip]
    let number = unsafe {
        exported_add(
            list.as_mut_ptr(), list.len(),
            count,
            totals.as_mut_ptr(), totals.len(),
            date,
            letter,
            t.side, t.kind, t.issuer, t.maturity, t.currency, t.rating, t.value,
            answer.as_mut_ptr(), answer.len(),
        )
    };
    number
}

/// Takes a trade from a book in place, and returns the refusal number, 0 for accepted.
///
/// What is lent, written and kept is as with [`margin_add`]. The value is removed from the first holding equal in side,
/// kind, issuer, maturity, currency and rating. One that is brought to zero leaves, and later ones move up; the record
/// behind the last holding keeps what it held.
///
/// ```
/// use margin_host::{Row, raw};
///
/// let bond = Row {
///     side: 0,
///     kind: 0,
///     issuer: 0,
///     maturity: 2026_01_01,
///     value: 1_000,
///     currency: 0,
///     rating: 2,
/// };
/// let (mut list, mut answer) = (bond.to_bytes(), [0; 16]);
/// let mut totals = [[0; 8]; 5];
/// totals[0] = (4 * 365 * 1_000_u64).to_le_bytes();
/// let mut take = |value| {
///     let (totals, trade) = (totals.as_flattened_mut(), Row { value, ..bond });
///     raw::margin_take(&mut list, 1, totals, 2025_01_01, 0, &trade, &mut answer)
/// };
/// assert_eq!(take(1_001), 27);
/// assert_eq!(take(1_000), 0);
/// assert_eq!((totals, answer), ([[0; 8]; 5], [0; 16]));
/// ```
#[must_use]
pub fn margin_take(
    list: &mut [u8],
    count: u64,
    totals: &mut [u8],
    date: u64,
    letter: u64,
    trade: &Row,
    answer: &mut [u8],
) -> u64 {
    let t = trade;
    // SAFETY: as in `margin_add`.
    #[rustfmt::skip]
    let number = unsafe {
        exported_take(
            list.as_mut_ptr(), list.len(),
            count,
            totals.as_mut_ptr(), totals.len(),
            date,
            letter,
            t.side, t.kind, t.issuer, t.maturity, t.currency, t.rating, t.value,
            answer.as_mut_ptr(), answer.len(),
        )
    };
    number
}

/// Refigures the five totals of a book for a later date, and returns the refusal number, 0 for accepted.
///
/// What is lent is as with [`margin_add`]. The list is read only; the caller keeps the new date. A refusal keeps the
/// totals. An answer slice of 16 bytes or more gets the count and 0, or the place and 0; a shorter one is kept.
///
/// ```
/// use margin_host::{Row, raw};
///
/// let bond = Row {
///     side: 0,
///     kind: 0,
///     issuer: 0,
///     maturity: 2026_01_01,
///     value: 1_000,
///     currency: 0,
///     rating: 2,
/// };
/// let (list, mut answer) = (bond.to_bytes(), [0; 16]);
/// let mut totals = [[0; 8]; 5];
/// totals[0] = (4 * 365 * 1_000_u64).to_le_bytes();
/// let mut move_to = |to| {
///     raw::margin_move(&list, 1, totals.as_flattened_mut(), 2025_01_01, 0, to, &mut answer)
/// };
/// assert_eq!(move_to(2026_01_01), 7);
/// assert_eq!(move_to(2025_12_31), 0);
/// assert_eq!(totals[0], (4 * 1_000_u64).to_le_bytes());
/// ```
#[must_use]
pub fn margin_move(
    list: &[u8],
    count: u64,
    totals: &mut [u8],
    date: u64,
    letter: u64,
    to: u64,
    answer: &mut [u8],
) -> u64 {
    // SAFETY: each pointer comes from a slice that is borrowed for the whole call, beside that slice's own length. The
    // totals and the answer are borrowed alone, so nothing else refers to them meanwhile. The function presumes nothing
    // of the bytes and the numbers and keeps no pointer.
    #[rustfmt::skip]
    let number = unsafe {
        exported_move(
            list.as_ptr(), list.len(),
            count,
            totals.as_mut_ptr(), totals.len(),
            date,
            letter,
            to,
            answer.as_mut_ptr(), answer.len(),
        )
    };
    number
}
