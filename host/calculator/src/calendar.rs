//! The Gregorian calendar, walked day by day. A date is the number YYYYMMDD.

use std::ops::RangeInclusive;
use std::sync::LazyLock;

/// The years of the papers' dates.
const YEARS: RangeInclusive<u64> = 1900..=2299;
/// The walk goes on until every date has its 100th anniversary, and the days beside that.
const LAST_WALKED: u64 = *YEARS.end() + 101;
/// January to December of a year without a leap day.
const MONTHS: [u64; 12] = [31, 28, 31, 30, 31, 30, 31, 31, 30, 31, 30, 31];

static WALK: LazyLock<Vec<u64>> = LazyLock::new(walk);

fn walk() -> Vec<u64> {
    let mut walk = Vec::new();
    for year in *YEARS.start()..=LAST_WALKED {
        for (month, length) in (1..).zip(MONTHS) {
            let leap_day = u64::from(month == 2 && has_leap_day(year));
            let first = 10_000 * year + 100 * month + 1;
            walk.extend(first..first + length + leap_day);
        }
    }
    walk
}

/// Every fourth year has one, but of the last years of the centuries only every fourth.
fn has_leap_day(year: u64) -> bool {
    let counted = if year.is_multiple_of(100) {
        year / 100
    } else {
        year
    };
    counted.is_multiple_of(4)
}

/// Every date, in order.
#[must_use]
pub fn dates() -> &'static [u64] {
    let past = (YEARS.end() + 1) * 10_000;
    &WALK[..WALK.partition_point(|day| *day < past)]
}

/// How many dates come before this one; nothing for a number that is no date.
#[must_use]
pub fn place(date: u64) -> Option<usize> {
    dates().binary_search(&date).ok()
}

/// The days from a date to a later one.
///
/// # Panics
///
/// If one of them is no date, or the second is the earlier.
#[must_use]
pub fn days_between(from: u64, to: u64) -> u64 {
    let [from, to] = [from, to].map(|date| place(date).expect("a date"));
    (to - from) as u64
}

/// The last day that is no later than the same day and month so many years on, up to 100.
#[must_use]
pub fn anniversary(date: u64, years: u64) -> u64 {
    let same = date + 10_000 * years;
    WALK[WALK.partition_point(|day| *day <= same) - 1]
}

/// The day so many days after a day of the walk, or before it.
///
/// # Panics
///
/// If either is outside the walk.
#[must_use]
pub fn days_after(day: u64, days: i64) -> u64 {
    let place = WALK.binary_search(&day).expect("a day");
    WALK[place.checked_add_signed(days as isize).expect("a day")]
}

#[cfg(test)]
mod tests {
    use super::{anniversary, dates, days_after, days_between, place};

    #[test]
    fn four_hundred_years_of_dates() {
        assert_eq!(dates().len(), 146_097);
        assert_eq!(dates().first(), Some(&1900_01_01));
        assert_eq!(dates().last(), Some(&2299_12_31));
        assert!(dates().is_sorted());
        let leap_days = dates().iter().filter(|date| **date % 10_000 == 229);
        assert_eq!(leap_days.count(), 97);
    }

    #[test]
    fn the_last_years_of_centuries() {
        let real = |date| place(date).is_some();
        assert!(!real(1900_02_29) && real(2000_02_29) && !real(2100_02_29) && real(2096_02_29));
        assert_eq!(days_after(2100_02_28, 1), 2100_03_01);
        assert_eq!(days_after(2000_03_01, -1), 2000_02_29);
    }

    #[test]
    fn days_are_counted() {
        assert_eq!(days_between(2025_01_01, 2025_01_01), 0);
        assert_eq!(days_between(2024_01_01, 2025_01_01), 366);
        assert_eq!(days_between(1999_12_31, 2000_03_01), 61);
        for (days, date) in [
            (1_500, 2029_02_09),
            (2_000, 2030_06_24),
            (5_000, 2038_09_10),
            (8_000, 2046_11_27),
        ] {
            assert_eq!(days_after(2025_01_01, days), date);
        }
    }

    #[test]
    fn anniversaries() {
        assert_eq!(anniversary(2025_01_01, 100), 2125_01_01);
        assert_eq!(anniversary(2024_02_29, 1), 2025_02_28);
        assert_eq!(anniversary(2024_02_29, 20), 2044_02_29);
        assert_eq!(anniversary(2000_02_29, 100), 2100_02_28);
        assert_eq!(anniversary(2023_02_28, 1), 2024_02_28);
        assert_eq!(anniversary(2299_12_31, 100), 2399_12_31);
    }
}
