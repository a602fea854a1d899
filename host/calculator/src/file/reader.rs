//! Records to columns, with the refusals of the file.

use std::collections::HashMap;

use margin_host::{Head, Line, Refusal};

use super::records::{IllFormed, Records};
use crate::lei::{Lei, in_form, is_good};
use crate::plain::{MOST_HOLDINGS, MOST_LINES};
use crate::{FIRST_CORPORATION, NOT_RATED, Row, Sheet};

/// A longer file is refused.
pub const MOST_BYTES: usize = 65_536;
/// The fields of every record.
pub const FIELDS: usize = 9;
/// An approved participant's account and a client's, in the order of their numbers.
pub const ACCOUNTS: [&str; 2] = ["P", "C"];
/// Long and short, in the order of their numbers.
pub const SIDES: [&str; 2] = ["L", "S"];
/// Bond, stripped coupon and residual, in the order of their numbers.
pub const KINDS: [&str; 3] = ["B", "C", "R"];
/// Canada, the provinces, the United States and the United Kingdom, in the order of their numbers.
pub const ISSUERS: [&str; 13] = [
    "CA", "AB", "BC", "MB", "NB", "NL", "NS", "ON", "PE", "QC", "SK", "US", "GB",
];
/// The currencies by their ISO 4217 codes, in the order of their numbers.
pub const CURRENCIES: [&str; 3] = ["CAD", "USD", "GBP"];
/// Single A or higher, lower, and none, in the order of their numbers.
pub const RATINGS: [&str; 3] = ["Y", "N", ""];
/// The digits that a value or an amount may have, and those of all other numerals.
const DIGITS_OF_CENTS: usize = 12;
const DIGITS: usize = 6;

/// The contents of a record.
enum Contents {
    /// The valuation date and the account's letter.
    Head(Head),
    /// A holding and its price; of a corporation its LEI, which has no number yet.
    Holding(Row, u64, Option<Lei>),
    Line(Line),
}

impl Contents {
    /// Whether an LEI has the right check digits and whether a rating stands on a corporation and on no
    /// government.
    fn is_sound(&self) -> bool {
        match self {
            Contents::Holding(row, _, Some(lei)) => is_good(lei) && row.rating != NOT_RATED,
            Contents::Holding(row, _, None) => row.rating == NOT_RATED,
            Contents::Head(_) | Contents::Line(_) => true,
        }
    }
}

/// The corporations of a file in the order of their numbers.
#[derive(Default)]
struct Corporations {
    leis: Vec<Lei>,
    numbers: HashMap<Lei, u64>,
}

impl Corporations {
    /// The number of a corporation, the next one if it is new.
    fn number(&mut self, lei: Lei) -> u64 {
        let next = FIRST_CORPORATION + self.leis.len() as u64;
        *self.numbers.entry(lei).or_insert_with(|| {
            self.leis.push(lei);
            next
        })
    }
}

/// Reads a file.
///
/// # Errors
///
/// The first refusal in the reader's order: 18; 22 for an empty file; each record in turn 19, 20, 21, 25, 22, then
/// 3 or 9.
pub fn read(text: &[u8]) -> Result<Sheet, Refusal> {
    read_with_leis(text).map(|(sheet, _)| sheet)
}

/// Reads a file, and gives the LEIs of its corporations in the order of their numbers.
pub(super) fn read_with_leis(text: &[u8]) -> Result<(Sheet, Vec<Lei>), Refusal> {
    if text.len() > MOST_BYTES {
        return Err(Refusal::FileTooLong);
    }
    if text.is_empty() {
        return Err(Refusal::RecordOutOfOrder { record: 0 });
    }
    // The first record says whose sheet it is, and of which date.
    let mut sheet = Sheet::empty(Head { date: 0, letter: 0 });
    let mut corporations = Corporations::default();
    let mut records = Records::of(text);
    let mut record = 0;
    while let Some(found) = records.next() {
        let found = found.map_err(|IllFormed| Refusal::RecordIllFormed { record })?;
        let fields = found
            .fields()
            .ok_or(Refusal::WrongNumberOfFields { record })?;
        let contents = contents(fields).ok_or(Refusal::FieldNotOfItsSort { record })?;
        if !contents.is_sound() {
            return Err(Refusal::LeiOrRatingInvalid { record });
        }
        let in_order = match contents {
            Contents::Head(_) => record == 0,
            Contents::Holding(..) => record > 0 && sheet.long.is_empty(),
            Contents::Line(_) => record > 0,
        };
        if !in_order {
            return Err(Refusal::RecordOutOfOrder { record });
        }
        match contents {
            Contents::Holding(..) if sheet.side.len() == MOST_HOLDINGS => {
                return Err(Refusal::TooManyHoldings);
            }
            Contents::Line(_) if sheet.long.len() == MOST_LINES => {
                return Err(Refusal::TooManyLines);
            }
            Contents::Head(head) => sheet.head = head,
            Contents::Holding(mut holding, price, lei) => {
                if let Some(lei) = lei {
                    holding.issuer = corporations.number(lei);
                }
                sheet.add_holding(holding, price);
            }
            Contents::Line(line) => sheet.add_line(line),
        }
        record += 1;
    }
    Ok((sheet, corporations.leis))
}

fn contents(fields: [&[u8]; FIELDS]) -> Option<Contents> {
    match fields {
        [b"D", day, letter, b"", b"", b"", b"", b"", b""] => Some(Contents::Head(Head {
            date: date(day)?,
            letter: place_among(&ACCOUNTS, letter)?,
        })),
        [
            b"H",
            side,
            kind,
            issuer,
            maturity,
            value,
            price,
            currency,
            rating,
        ] => {
            let lei = in_form(issuer);
            let holding = Row {
                side: place_among(&SIDES, side)?,
                kind: place_among(&KINDS, kind)?,
                issuer: match lei {
                    Some(_) => FIRST_CORPORATION,
                    None => place_among(&ISSUERS, issuer)?,
                },
                maturity: date(maturity)?,
                value: numeral(value, DIGITS_OF_CENTS)?,
                currency: place_among(&CURRENCIES, currency)?,
                rating: place_among(&RATINGS, rating)?,
            };
            Some(Contents::Holding(holding, numeral(price, DIGITS)?, lei))
        }
        [b"P", long, short, amount, b"", b"", b"", b"", b""] => Some(Contents::Line(Line {
            long: numeral(long, DIGITS)?,
            short: numeral(short, DIGITS)?,
            amount: numeral(amount, DIGITS_OF_CENTS)?,
        })),
        _ => None,
    }
}

fn place_among(texts: &[&str], field: &[u8]) -> Option<u64> {
    let place = texts.iter().position(|text| text.as_bytes() == field)?;
    Some(place as u64)
}

/// The number YYYYMMDD that a field of the form YYYY-MM-DD writes; it need be no date.
fn date(field: &[u8]) -> Option<u64> {
    let &[a, b, c, d, b'-', e, f, b'-', g, h] = field else {
        return None;
    };
    let mut number = 0;
    for digit in [a, b, c, d, e, f, g, h] {
        if !digit.is_ascii_digit() {
            return None;
        }
        number = 10 * number + u64::from(digit - b'0');
    }
    Some(number)
}

/// The number that a field writes. It has neither sign nor leading zero if it is no longer than its
/// number.
fn numeral(field: &[u8], most: usize) -> Option<u64> {
    if field.len() > most {
        return None;
    }
    let number: u64 = str::from_utf8(field).ok()?.parse().ok()?;
    let digits = number
        .checked_ilog10()
        .map_or(1, |power| power as usize + 1);
    (digits == field.len()).then_some(number)
}

#[cfg(test)]
mod tests {
    use super::{date, numeral};

    #[test]
    fn dates() {
        for (field, number) in [
            ("2025-01-01", 2025_01_01),
            ("2299-12-31", 2299_12_31),
            ("2025-02-30", 2025_02_30),
            ("0000-00-00", 0),
            ("9999-99-99", 9999_99_99),
        ] {
            assert_eq!(date(field.as_bytes()), Some(number), "{field}");
        }
        for field in [
            "",
            "2025",
            "20250101",
            "2025-1-01",
            "2025-01-1",
            "025-01-01",
            "02025-01-01",
            "2025-001-01",
            "2025/01/01",
            "2025-01/01",
            "2025-01-01 ",
            " 2025-01-01",
            "+025-01-01",
            "-025-01-01",
            "2025--1-01",
            "202a-01-01",
            "2025-0:-01",
            "2025-01-/1",
            "01-01-2025",
        ] {
            assert_eq!(date(field.as_bytes()), None, "{field}");
        }
    }

    #[test]
    fn numerals() {
        for (field, number) in [
            ("0", 0),
            ("1", 1),
            ("9", 9),
            ("10", 10),
            ("999999", 999_999),
        ] {
            assert_eq!(numeral(field.as_bytes(), 6), Some(number), "{field}");
        }
        for field in [
            "", "00", "01", "007", "+1", "-1", "-0", "+0", " 1", "1 ", "1.0", "1e3", "1,0", "1_0",
            "0x1", "a", "1000000", "\"\"", "1\"\"",
        ] {
            assert_eq!(numeral(field.as_bytes(), 6), None, "{field}");
        }
        assert_eq!(numeral(b"999999999999", 12), Some(999_999_999_999));
        assert_eq!(numeral(b"1000000000000", 12), None);
    }
}
