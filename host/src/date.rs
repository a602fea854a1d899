//! Days of the calendar: each has a text in the file and a number in a column.

use std::error::Error;
use std::fmt;
use std::str::FromStr;

/// A day of the Gregorian calendar in the years 1900 to 2299, as a valuation date and a maturity are.
/// An earlier day is less than a later one.
///
/// ```
/// use margin_host::Date;
///
/// let valued = Date::new(2025, 1, 1).expect("a day");
/// let maturity: Date = "2030-06-24".parse()?;
/// assert!(valued < maturity);
/// assert_eq!((maturity.year(), maturity.month(), maturity.day()), (2030, 6, 24));
/// # Ok::<(), margin_host::InvalidDate>(())
/// ```
#[derive(Clone, Copy, Debug, PartialEq, Eq, Hash, PartialOrd, Ord)]
pub struct Date {
    year: u16,
    month: u8,
    day: u8,
}

impl Date {
    /// The first day, 1900-01-01.
    pub const MIN: Date = Date {
        year: 1900,
        month: 1,
        day: 1,
    };

    /// The last day, 2299-12-31.
    pub const MAX: Date = Date {
        year: 2299,
        month: 12,
        day: 31,
    };

    /// The day of a year, a month from 1 and a day of it from 1, if there is one.
    ///
    /// ```
    /// use margin_host::Date;
    ///
    /// assert!(Date::new(2024, 2, 29).is_some());
    /// assert_eq!(Date::new(2025, 2, 29), None);
    /// assert_eq!(Date::new(2300, 1, 1), None);
    /// ```
    #[must_use]
    pub const fn new(year: u16, month: u8, day: u8) -> Option<Date> {
        let known = Date::MIN.year <= year && year <= Date::MAX.year;
        if known && 1 <= day && day <= month_length(year, month) {
            Some(Date { year, month, day })
        } else {
            None
        }
    }

    /// The number in a column, YYYYMMDD.
    ///
    /// ```
    /// use margin_host::Date;
    ///
    /// assert_eq!(Date::MAX.number(), 2299_12_31);
    /// ```
    #[must_use]
    pub const fn number(self) -> u64 {
        self.year as u64 * 10_000 + self.month as u64 * 100 + self.day as u64
    }

    /// The day with this number, if there is one.
    ///
    /// ```
    /// use margin_host::Date;
    ///
    /// assert_eq!(Date::from_number(2024_02_29), Date::new(2024, 2, 29));
    /// assert_eq!(Date::from_number(2025_02_29), None);
    /// ```
    #[must_use]
    pub const fn from_number(number: u64) -> Option<Date> {
        if number > Date::MAX.number() {
            return None;
        }
        let (year, month, day) = (number / 10_000, number / 100 % 100, number % 100);
        Date::new(year as u16, month as u8, day as u8)
    }

    /// The year, 1900 to 2299.
    #[must_use]
    pub const fn year(self) -> u16 {
        self.year
    }

    /// The month, 1 to 12.
    #[must_use]
    pub const fn month(self) -> u8 {
        self.month
    }

    /// The day of the month, 1 to 31.
    #[must_use]
    pub const fn day(self) -> u8 {
        self.day
    }
}

/// The days of a month; 0 for a month that is none.
const fn month_length(year: u16, month: u8) -> u8 {
    match month {
        1 | 3 | 5 | 7 | 8 | 10 | 12 => 31,
        4 | 6 | 9 | 11 => 30,
        2 if year.is_multiple_of(400) => 29,
        2 if year.is_multiple_of(4) && !year.is_multiple_of(100) => 29,
        2 => 28,
        _ => 0,
    }
}

/// Writes the text that the day has in the file, YYYY-MM-DD.
///
/// ```
/// use margin_host::Date;
///
/// assert_eq!(Date::MIN.to_string(), "1900-01-01");
/// ```
impl fmt::Display for Date {
    fn fmt(&self, f: &mut fmt::Formatter<'_>) -> fmt::Result {
        let Date { year, month, day } = self;
        f.pad(&format!("{year:04}-{month:02}-{day:02}"))
    }
}

/// Reads the text that the day has in the file, and no other.
///
/// ```
/// use margin_host::Date;
///
/// assert_eq!("2024-02-29".parse().ok(), Date::new(2024, 2, 29));
/// assert!("2025-02-29".parse::<Date>().is_err());
/// assert!("2024-2-29".parse::<Date>().is_err());
/// ```
impl FromStr for Date {
    type Err = InvalidDate;

    fn from_str(text: &str) -> Result<Date, InvalidDate> {
        let day = digits(text).and_then(Date::from_number);
        day.ok_or_else(|| InvalidDate {
            text: text.to_string(),
        })
    }
}

/// The number that the eight digits of a text of the form YYYY-MM-DD make.
fn digits(text: &str) -> Option<u64> {
    let in_form = |(at, byte): (usize, u8)| match at {
        4 | 7 => byte == b'-',
        _ => byte.is_ascii_digit(),
    };
    if text.len() != 10 || !text.bytes().enumerate().all(in_form) {
        return None;
    }
    text.replace('-', "").parse().ok()
}

/// A text that no day has.
///
/// ```
/// use margin_host::Date;
///
/// let invalid = "2025-02-29".parse::<Date>().expect_err("no such day");
/// let words = "invalid date \"2025-02-29\": it must be a day from 1900-01-01 to 2299-12-31";
/// assert_eq!(invalid.to_string(), words);
/// ```
#[derive(Clone, Debug, PartialEq, Eq, Hash)]
pub struct InvalidDate {
    text: String,
}

impl fmt::Display for InvalidDate {
    fn fmt(&self, f: &mut fmt::Formatter<'_>) -> fmt::Result {
        let InvalidDate { text } = self;
        let (first, last) = (Date::MIN, Date::MAX);
        write!(
            f,
            "invalid date {text:?}: it must be a day from {first} to {last}"
        )
    }
}

impl Error for InvalidDate {}
