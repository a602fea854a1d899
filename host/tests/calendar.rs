//! The calendar of the check against the calculator's, which is walked day by day: every day of 1900 to 2299,
//! every number that could be one, and every anniversary. So many books are small and not lent between guards.

mod support;

use margin_calculator::calendar::{anniversary, dates, days_after, days_between, place};
use margin_calculator::samples::Random;
use margin_host::{Columns, Date, raw};
use support::sheets::{BOND, CA, COUPON, ON};

/// The first and the last number that could be a date of 1899 to 2300.
const NUMBERS: std::ops::RangeInclusive<u64> = 1899_00_00..=2300_99_99;
/// The rating of a government, as bytes.
const NOT_RATED: [u8; 8] = margin_calculator::NOT_RATED.to_le_bytes();
/// The years at which a term changes.
const YEARS: [u64; 6] = [1, 3, 7, 11, 20, 100];

/// The number that the check returns, and the first number of its answer: the units or the place.
fn answer(date: u64, columns: &Columns<&[u8]>) -> (u64, u64) {
    let (mut remainder, mut ranking, mut answer) = ([0; 16], [0; 16], [0; 16]);
    // Nothing here depends on whose account it is.
    let letter = date % 2;
    let number = raw::margin_check(
        date,
        letter,
        columns,
        &mut remainder,
        &mut ranking,
        &mut answer,
    );
    (number, u64::from_le_bytes(answer.as_chunks().0[0]))
}

/// The answer to one long in CAD, by its kind, issuer, maturity and value.
fn one(date: u64, holding: [u64; 4]) -> (u64, u64) {
    let [kind, issuer, maturity, value] = holding.map(u64::to_le_bytes);
    let mut columns: Columns<&[u8]> = Columns::by_group(&[0; 8], &[]);
    (columns.kind, columns.issuer) = (&kind, &issuer);
    (columns.maturity, columns.value) = (&maturity, &value);
    columns.rating = &NOT_RATED;
    answer(date, &columns)
}

/// Whether a long and a short coupon of ON, each of one cent, may be paired.
fn pair(date: u64, maturities: [u64; 2]) -> bool {
    let entries = |numbers: [u64; 2]| -> [u8; 16] {
        let [low, high] = numbers.map(u128::from);
        (low | high << 64).to_le_bytes()
    };
    let [side, one, issuer, maturity, rating] =
        [[0, 1], [1, 1], [ON, ON], maturities, [2, 2]].map(entries);
    let columns: Columns<&[u8]> = Columns {
        side: &side,
        kind: &one,
        issuer: &issuer,
        maturity: &maturity,
        value: &one,
        price: &[0; 16],
        currency: &[0; 16],
        rating: &rating,
        long: &side[..8],
        short: &side[8..],
        amount: &one[..8],
    };
    match answer(date, &columns).0 {
        13 => false,
        // Prices of 0 cover no pair of coupons.
        16 => true,
        number => panic!("{number} of {maturities:?}, valued on {date}"),
    }
}

/// What the papers say to a coupon of ON of one cent: the refusal, or the rate.
fn wanted(date: u64, maturity: u64) -> (u64, u64) {
    let ends = YEARS.map(|years| anniversary(date, years));
    match place(maturity) {
        None => (24, 0),
        Some(_) if maturity <= date || maturity > ends[5] => (7, 0),
        Some(_) if maturity <= ends[0] => (0, 12 * days_between(date, maturity)),
        Some(_) if maturity <= ends[1] => (0, 6_570),
        Some(_) if maturity <= ends[2] => (0, 8_760),
        Some(_) if maturity < ends[4] => (0, 10_950),
        Some(_) => (0, 21_900),
    }
}

#[test]
fn a_day_is_followed_by_the_next() {
    // At 4 units a day 36,500 cents of a Canada bond ask one cent for each day.
    for two in dates().windows(2) {
        let [day, next] = [two[0], two[1]];
        let bond = |maturity| [BOND, CA, maturity, 36_500];
        assert_eq!(one(day, bond(next)), (0, 146_000), "{day}");
        assert_eq!(one(day, bond(day)), (7, 0), "{day}");
        assert_eq!(one(next, bond(day)), (7, 0), "{day}");
    }
}

#[test]
fn every_number_as_a_maturity() {
    let mut real = dates().iter().copied().peekable();
    for number in NUMBERS {
        let wanted = match real.next_if_eq(&number) {
            Some(2025_01_02..=2125_01_01) => 0,
            Some(_) => 7,
            None => 24,
        };
        let (found, _) = one(2025_01_01, [BOND, CA, number, 1]);
        assert_eq!(found, wanted, "{number}");
    }
    assert_eq!(real.next(), None, "every date was met");
}

#[test]
fn every_number_as_a_valuation_date() {
    // The last date has matured on itself, and is no later than the 100th anniversary from 2199-12-31 on.
    let mut real = dates().iter().copied().peekable();
    for number in NUMBERS {
        let wanted = match real.next_if_eq(&number) {
            Some(2199_12_31..2299_12_31) => 0,
            Some(_) => 7,
            None => 24,
        };
        let (found, _) = one(number, [BOND, CA, 2299_12_31, 1]);
        assert_eq!(found, wanted, "{number}");
    }
    assert_eq!(real.next(), None, "every date was met");
}

#[test]
fn every_number_as_a_date_of_the_wrapper() {
    let mut real = dates().iter().copied().peekable();
    for number in (0..100_000_000).step_by(9_973).chain(NUMBERS).chain([
        u64::MAX,
        1 << 32,
        (1 << 32) + 2025_01_01,
    ]) {
        let date = Date::from_number(number);
        assert_eq!(date.is_some(), place(number).is_some(), "{number}");
        if let Some(date) = date {
            assert_eq!(date.number(), number);
        }
        real.next_if_eq(&number);
    }
    assert_eq!(real.next(), None, "every date was met");
}

#[test]
fn every_date_of_the_wrapper_in_its_parts_and_as_text() {
    let mut before = None;
    for number in dates() {
        let date = Date::from_number(*number).expect("a date");
        assert_eq!(Date::new(date.year(), date.month(), date.day()), Some(date));
        let text = date.to_string();
        assert_eq!(text.replace('-', ""), number.to_string());
        assert_eq!(text.parse(), Ok(date));
        assert!(before < Some(date), "{date}");
        before = Some(date);
    }
    assert_eq!(before, Some(Date::MAX));
    assert_eq!(Date::MIN.number(), dates()[0]);
}

/// Demands 4 units for each day from a date to those that are so many days later, up to its anniversary.
fn days_are_counted(from: usize, days: impl IntoIterator<Item = usize>) {
    let date = dates()[from];
    let last = anniversary(date, 1);
    for days in days {
        let Some(&maturity) = dates().get(from + days) else {
            continue;
        };
        if maturity <= last {
            let units = 4 * days as u64;
            let found = one(date, [BOND, CA, maturity, 1]);
            assert_eq!(found, (0, units), "{date} to {maturity}");
        }
    }
}

#[test]
fn days_from_every_date() {
    let some = [
        1, 2, 27, 28, 29, 30, 31, 32, 58, 59, 60, 61, 90, 92, 120, 180, 243, 300, 333, 360, 364,
        365, 366,
    ];
    for from in 0..dates().len() {
        days_are_counted(from, some);
    }
}

#[test]
fn all_days_of_some_years() {
    for year in [
        1900, 1903, 1904, 1999, 2000, 2024, 2025, 2099, 2100, 2196, 2299,
    ] {
        let first = place(10_000 * year + 101).expect("a first of January");
        for from in first..first + 365 {
            days_are_counted(from, 1..=366);
        }
    }
}

#[test]
fn every_anniversary_of_every_date() {
    for &date in dates() {
        for years in YEARS {
            let end = anniversary(date, years);
            for maturity in [days_after(end, -1), end, days_after(end, 1)] {
                let found = one(date, [COUPON, ON, maturity, 1]);
                assert_eq!(
                    found,
                    wanted(date, maturity),
                    "{maturity}, valued on {date}"
                );
            }
        }
    }
}

#[test]
fn every_end_of_a_period() {
    for &date in dates() {
        for years in [1, 3, 7, 11] {
            let end = anniversary(date, years);
            let [before, after, later] = [-1, 1, 2].map(|days| days_after(end, days));
            if later <= 2299_12_31 {
                assert!(pair(date, [before, end]), "{end}, valued on {date}");
                assert!(!pair(date, [end, after]), "{end}, valued on {date}");
                assert!(pair(date, [later, after]), "{end}, valued on {date}");
            }
        }
    }
}

#[test]
fn twenty_years_are_no_end_of_a_period() {
    for &date in dates() {
        let twenty = anniversary(date, 20);
        if twenty <= 2299_12_31 {
            let maturities = [days_after(twenty, -1), twenty];
            assert!(pair(date, maturities), "valued on {date}");
        }
    }
}

#[test]
fn random_dates_and_maturities() {
    let mut random = Random::new(0x0E01);
    let mut seen = [0; 3];
    for _ in 0..500_000 {
        let date = random.pick(dates());
        let maturity = match random.below(4) {
            // Unreal now and then, and within a century of the date.
            0 => date + 10_000 * random.below(102) + random.below(200) - 100,
            _ => random.pick(dates()),
        };
        let wanted = wanted(date, maturity);
        let found = one(date, [COUPON, ON, maturity, 1]);
        assert_eq!(found, wanted, "{maturity}, valued on {date}");
        seen[match wanted.0 {
            0 => 0,
            7 => 1,
            _ => 2,
        }] += 1;
    }
    assert!(seen.iter().all(|count| *count > 20_000), "{seen:?}");
}
