//! Dates by arithmetic on their numbers YYYYMMDD, for the plain check, which is timed. The tests hold it
//! against the walked calendar.

const FIRST: u64 = 1900_01_01;
const LAST: u64 = 2299_12_31;
/// The most days of a month, by its number; none where there is no such month.
const MONTH_LENGTHS: [u32; 100] = month_lengths();

const fn month_lengths() -> [u32; 100] {
    let mut lengths = [0; 100];
    let mut month = 1;
    while month <= 12 {
        // 30 days hath September, April, June and November.
        lengths[month] = match month {
            2 => 29,
            4 | 6 | 9 | 11 => 30,
            _ => 31,
        };
        month += 1;
    }
    lengths
}

/// Whether a number is a day of the years 1900 to 2299.
#[inline]
pub(crate) fn is_date(number: u64) -> bool {
    if !(FIRST..=LAST).contains(&number) {
        return false;
    }
    let (year, month, day) = parts(number);
    (1..=MONTH_LENGTHS[month as usize]).contains(&day)
        && ((month, day) != (2, 29) || has_leap_day(year))
}

/// The same day and month so many years on, or 28 February for a 29 February that is missing there.
#[inline]
pub(crate) fn anniversary(date: u64, years: u64) -> u64 {
    let same = date + 10_000 * years;
    let (year, month, day) = parts(same);
    same - u64::from((month, day) == (2, 29) && !has_leap_day(year))
}

/// The number of a date in a count of days: years begin in March, so that a leap day is the last of its year,
/// and their months have 31 and 30 days in turn, five months 153.
#[inline]
pub(crate) fn day_count(date: u64) -> u64 {
    let (year, month, day) = parts(date);
    let (year, month) = if month > 2 {
        (year, month - 3)
    } else {
        (year - 1, month + 9)
    };
    let days = 365 * year + year / 4 - year / 100 + year / 400 + (153 * month + 2) / 5 + day;
    u64::from(days)
}

fn parts(date: u64) -> (u32, u32, u32) {
    let date = date as u32;
    (date / 10_000, date / 100 % 100, date % 100)
}

fn has_leap_day(year: u32) -> bool {
    year.is_multiple_of(4) && (!year.is_multiple_of(100) || year.is_multiple_of(400))
}

#[cfg(test)]
mod tests {
    use super::{anniversary, day_count, is_date};
    use crate::calendar;

    #[test]
    fn every_number_of_eight_digits() {
        let found = (0..100_000_000).filter(|number| is_date(*number));
        assert!(found.eq(calendar::dates().iter().copied()));
        for number in [u64::MAX, 1 << 32, (1 << 32) + 2025_01_01, 12025_01_01] {
            assert!(!is_date(number), "{number}");
        }
    }

    #[test]
    fn every_day_is_counted() {
        let first = day_count(1900_01_01);
        for (place, date) in calendar::dates().iter().enumerate() {
            assert_eq!(day_count(*date), first + place as u64, "{date}");
        }
    }

    #[test]
    fn every_anniversary() {
        for date in calendar::dates() {
            for years in [0, 1, 3, 7, 11, 20, 50, 99, 100] {
                let walked = calendar::anniversary(*date, years);
                assert_eq!(anniversary(*date, years), walked, "{date}, {years}");
            }
        }
    }
}
