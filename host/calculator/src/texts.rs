//! Texts of files, for the samples, the cases and the tests.
//!
//! A record is a text without its CRLF, so that it can be changed before it goes into a file. The
//! empty fields that end a record are added here alone: the rest names the filled ones.

use crate::samples::Random;
use crate::{
    ACCOUNTS, CURRENCIES, FIELDS, FIRST_CORPORATION, ISSUERS, KINDS, RATINGS, SIDES, Sheet, VALUED,
    with_check_digits,
};

/// The records of the file that document 01 prints, an approved participant's: the head, three holdings and two
/// lines.
pub const PRINTED: [&str; 6] = [
    "D,2025-01-01,P,,,,,,",
    "H,L,C,CA,2030-06-24,1000000,0,CAD,",
    "H,S,B,CA,2030-06-24,600000,5840,CAD,",
    "H,S,R,ON,2030-06-24,300000,6570,CAD,",
    "P,0,1,600000,,,,,",
    "P,0,2,300000,,,,,",
];

/// Fields of a head that are filled, its letter among them; the others are empty.
const FILLED_OF_HEAD: usize = 3;
/// Fields of a holding that are filled, its letter among them and, of a corporation, its rating; the others are
/// empty.
const FILLED_OF_HOLDING: usize = 9;
/// Fields of a line that are filled, its letter among them; the others are empty.
const FILLED_OF_LINE: usize = 4;

/// The text of a number of up to eight digits in the form YYYY-MM-DD; it need be no date.
#[must_use]
pub fn date_text(number: u64) -> String {
    let (year, month, day) = (number / 10_000, number / 100 % 100, number % 100);
    format!("{year:04}-{month:02}-{day:02}")
}

/// The head of an approved participant's book on the valuation date with this text.
#[must_use]
pub fn valued(date: &str) -> String {
    head(date, "P")
}

/// The head of a book on the valuation date with this text, in the account with this letter.
#[must_use]
pub fn head(date: &str, account: &str) -> String {
    format!("D,{date},{account}{}", ",".repeat(FIELDS - FILLED_OF_HEAD))
}

/// The record of a government's holding in CAD with these fields after its letter and before its currency.
#[must_use]
pub fn holding(fields: &str) -> String {
    holding_in("CAD", fields)
}

/// The record of a government's holding in a currency with these fields after its letter and before its
/// currency.
#[must_use]
pub fn holding_in(currency: &str, fields: &str) -> String {
    rated_in(currency, "", fields)
}

/// The record of a holding in CAD with a rating and these fields after its letter and before its currency.
#[must_use]
pub fn rated(rating: &str, fields: &str) -> String {
    rated_in("CAD", rating, fields)
}

/// The record of a holding in a currency with a rating and these fields after its letter and before its
/// currency.
#[must_use]
pub fn rated_in(currency: &str, rating: &str, fields: &str) -> String {
    let empty = ",".repeat(FIELDS - FILLED_OF_HOLDING);
    format!("H,{fields},{currency},{rating}{empty}")
}

/// The text of an issuer: of a corporation an LEI of its own, which the seed of its number makes.
///
/// # Panics
///
/// If it is neither a government nor a corporation.
#[must_use]
pub fn issuer_text(number: u64) -> String {
    if number < FIRST_CORPORATION {
        return ISSUERS[number as usize].to_string();
    }
    let mut random = Random::new(number);
    let mut character = || char::from(random.pick(b"0123456789ABCDEFGHIJKLMNOPQRSTUVWXYZ"));
    let first: String = (0..18).map(|_| character()).collect();
    with_check_digits(&first)
}

/// The record of a line with these fields after its letter.
#[must_use]
pub fn line(fields: &str) -> String {
    format!("P,{fields}{}", ",".repeat(FIELDS - FILLED_OF_LINE))
}

/// The file of governments' holdings in CAD and lines with these fields after their letters, an approved
/// participant's valued on document 01's date.
#[must_use]
pub fn file(holdings: &[&str], lines: &[&str]) -> Vec<u8> {
    let mut records: Vec<String> = holdings.iter().map(|fields| holding(fields)).collect();
    records.extend(lines.iter().map(|fields| line(fields)));
    dated(&records)
}

/// The file of these records after the head of an approved participant's book on document 01's valuation date.
pub fn dated<T: AsRef<str>>(records: &[T]) -> Vec<u8> {
    dated_for("P", records)
}

/// The file of these records after the head of a book on document 01's valuation date, in the account with this
/// letter.
pub fn dated_for<T: AsRef<str>>(account: &str, records: &[T]) -> Vec<u8> {
    let head = head(&date_text(VALUED), account);
    [joined(&[head]), joined(records)].concat()
}

/// The last record of a file of equal lines: as the others, and with a fault for each refusal of a record, each
/// with its name and the number that the file gets.
#[must_use]
pub fn last_lines() -> [(&'static str, String, u64); 6] {
    let good = PRINTED[4];
    [
        ("no fault", good.to_string(), 0),
        ("a tab", format!("{good}\t"), 19),
        ("a field too many", of_width(good, FIELDS + 1), 20),
        ("an amount of 01", line("0,1,01"), 21),
        (
            "a rating on Canada",
            rated("Y", "L,B,CA,2030-06-24,1,0"),
            25,
        ),
        ("a second date", PRINTED[0].to_string(), 22),
    ]
}

/// The file of a head on document 01's valuation date and so many lines, equal but for the last.
///
/// # Panics
///
/// If there is no line.
#[must_use]
pub fn equal_lines(count: usize, last: &str) -> Vec<u8> {
    let mut lines = vec![PRINTED[4]; count];
    lines[count - 1] = last;
    dated(&lines)
}

/// Records with a CRLF after each.
pub fn joined<T: AsRef<str>>(records: &[T]) -> Vec<u8> {
    let mut text = Vec::new();
    for record in records {
        text.extend(record.as_ref().as_bytes());
        text.extend(b"\r\n");
    }
    text
}

/// A record without a comma in quotes, cut or filled up with empty fields until it has so many.
#[must_use]
pub fn of_width(record: &str, count: usize) -> String {
    let mut fields: Vec<&str> = record.split(',').collect();
    fields.resize(count, "");
    fields.join(",")
}

/// A record without quotes, with each of its fields in quotes.
#[must_use]
pub fn quoted(record: &str) -> String {
    let fields: Vec<String> = record
        .split(',')
        .map(|field| format!("\"{field}\""))
        .collect();
    fields.join(",")
}

/// A record without quotes, with the fields at some places in quotes.
///
/// # Panics
///
/// If the record has no field at one of them.
#[must_use]
pub fn quoted_at(record: &str, places: &[usize]) -> String {
    let mut fields: Vec<String> = record.split(',').map(String::from).collect();
    for at in places {
        fields[*at] = format!("\"{}\"", fields[*at]);
    }
    fields.join(",")
}

/// The records of a sheet: head, holdings, lines.
///
/// # Panics
///
/// If an account, side, kind, issuer, currency or rating is unknown, or the columns differ in length.
#[must_use]
pub fn records(sheet: &Sheet) -> Vec<String> {
    let mut records = Vec::with_capacity(1 + sheet.side.len() + sheet.long.len());
    let account = ACCOUNTS[sheet.head.letter as usize];
    records.push(head(&date_text(sheet.head.date), account));
    for (number, price) in sheet.price.iter().enumerate() {
        let row = sheet.row(number);
        let side = SIDES[row.side as usize];
        let kind = KINDS[row.kind as usize];
        let issuer = issuer_text(row.issuer);
        let currency = CURRENCIES[row.currency as usize];
        let rating = RATINGS[row.rating as usize];
        let (maturity, value) = (date_text(row.maturity), row.value);
        let fields = format!("{side},{kind},{issuer},{maturity},{value},{price}");
        records.push(rated_in(currency, rating, &fields));
    }
    for ((long, short), amount) in sheet.long.iter().zip(&sheet.short).zip(&sheet.amount) {
        records.push(line(&format!("{long},{short},{amount}")));
    }
    records
}

/// The file of a sheet.
///
/// # Panics
///
/// As [`records`].
#[must_use]
pub fn text_of(sheet: &Sheet) -> Vec<u8> {
    joined(&records(sheet))
}
