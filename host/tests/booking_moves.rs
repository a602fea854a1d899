//! Moves: from day to day, over the ends of months and of years, and to the maturities.

mod support;

use margin_calculator::calendar::{anniversary, dates, days_after, place};
use margin_calculator::samples::{ANY, SHAPES, holdings, valuation_date};
use margin_calculator::{NOT_RATED, Order, Row, VALUED, client, participant};
use support::booking::{LentBook, Orders};

const BOND: Row = Row {
    side: 0,
    kind: 0,
    issuer: 0,
    maturity: 2030_06_24,
    value: 1_000,
    currency: 0,
    rating: NOT_RATED,
};

/// Bonds and strips of each class that mature on a day.
fn maturing(maturity: u64) -> [Row; 6] {
    let of = |kind, issuer, rating| Row {
        kind,
        issuer,
        rating,
        maturity,
        ..BOND
    };
    [
        of(0, 0, NOT_RATED),
        of(1, 0, NOT_RATED),
        of(0, 7, NOT_RATED),
        of(2, 7, NOT_RATED),
        of(0, 100, 0),
        of(1, 100, 1),
    ]
}

#[test]
fn day_by_day_to_the_maturity() {
    // Each day from just before the last leap day to the maturity, one move from the one before.
    let mut orders = Orders::fixed("day by day to the maturity");
    for (from, maturity) in [
        (2024_02_27, 2025_03_01),
        (2023_12_30, 2024_02_29),
        (2099_12_31, 2100_03_01),
        (1999_12_31, 2000_03_01),
        (2299_01_01, 2299_12_31),
    ] {
        let rows = maturing(maturity);
        let mut book = LentBook::of(client(from), &rows, 6);
        let mut date = from;
        loop {
            date = days_after(date, 1);
            let what = format_args!("to {date}");
            if date == maturity {
                orders.refused(&book, &Order::Move(date), (7, 0), what);
                break;
            }
            book = orders.accepted(&book, &Order::Move(date), &rows, what);
        }
    }
}

#[test]
fn to_the_days_about_each_anniversary() {
    // A holding's period and its 20-year multiple change where the new date's anniversary passes its maturity.
    let mut orders = Orders::fixed("to the days about each anniversary");
    for maturity in [
        2060_02_28, 2060_02_29, 2060_03_01, 2061_02_28, 2061_03_01, 2060_12_31, 2061_01_01,
    ] {
        let rows = maturing(maturity);
        let book = LentBook::of(participant(2000_02_29), &rows, 6);
        for years in [1, 3, 7, 11, 20] {
            let about = maturity - 10_000 * years;
            // The day itself may be missing; the days about it are found from the first of its month.
            let first = about / 100 * 100 + 1;
            for days in -3..=40 {
                let to = days_after(first, days);
                orders.accepted(
                    &book,
                    &Order::Move(to),
                    &rows,
                    format_args!("{years} years, to {to}"),
                );
            }
        }
    }
}

#[test]
fn totals_of_the_papers_rates() {
    // Typed from document 01's table and from 02 b) and d): a date, and the totals of a cent of each holding.
    let mut orders = Orders::fixed("totals of the papers' rates");
    let strip = Row {
        kind: 1,
        maturity: 2046_11_27,
        value: 1,
        ..BOND
    };
    let provincial = Row { issuer: 7, ..strip };
    let corporate = Row {
        issuer: 100,
        rating: 0,
        ..strip
    };
    let rows = [strip, provincial, corporate];
    let book = LentBook::of(participant(VALUED), &rows, 3);
    for (to, totals) in [
        (2026_11_27, [0, 0, 0, 0, 17_520 + 21_900 + 43_800]),
        (2026_11_28, [0, 0, 0, 0, 8_760 + 10_950 + 21_900]),
        (2035_11_26, [0, 0, 0, 0, 8_760 + 10_950 + 21_900]),
        (2035_11_27, [0, 0, 0, 8_760 + 10_950 + 21_900, 0]),
        (2039_11_26, [0, 0, 0, 8_760 + 10_950 + 21_900, 0]),
        (2039_11_27, [0, 0, 4_380 + 8_760 + 15_330, 0, 0]),
        (2043_11_27, [0, 2_190 + 6_570 + 13_140, 0, 0, 0]),
        (2045_11_26, [0, 2_190 + 6_570 + 13_140, 0, 0, 0]),
        (2045_11_27, [365 * (6 + 12) + 6_570, 0, 0, 0, 0]),
        (2046_11_26, [6 + 12 + 6_570, 0, 0, 0, 0]),
    ] {
        let what = format_args!("to {to}");
        let after = orders.accepted(&book, &Order::Move(to), &rows, what);
        let stored: Vec<u8> = totals
            .iter()
            .flat_map(|total: &u64| total.to_le_bytes())
            .collect();
        assert_eq!(after.totals, stored, "{what}");
    }
    for to in [2046_11_27, 2046_11_28, 2299_12_31] {
        orders.refused(&book, &Order::Move(to), (7, 0), format_args!("to {to}"));
    }
}

#[test]
fn the_first_holding_matured_by_then() {
    let mut orders = Orders::fixed("the first holding matured by then");
    let days = [2030_01_31, 2026_02_28, 2028_02_29, 2026_02_28, 2100_12_31];
    let rows = days.map(|maturity| Row { maturity, ..BOND });
    let book = LentBook::of(participant(VALUED), &rows, 5);
    for (to, place) in [
        (2026_02_28, 1),
        (2026_03_01, 1),
        (2028_02_28, 1),
        (2028_02_29, 1),
        (2030_01_30, 1),
        (2030_01_31, 0),
        (2299_12_31, 0),
    ] {
        orders.refused(&book, &Order::Move(to), (7, place), format_args!("to {to}"));
    }
    for to in [2025_01_02, 2025_12_31, 2026_02_27] {
        orders.accepted(&book, &Order::Move(to), &rows, format_args!("to {to}"));
    }
}

#[test]
fn every_number_about_a_date() {
    let mut orders = Orders::fixed("numbers about a date");
    let rows = maturing(2120_06_30);
    let book = LentBook::of(client(2025_06_15), &rows, 6);
    for to in (2024_11_00..2026_03_40).chain([0, 1, 1899_12_31, 2300_01_01, 99_99_99_99]) {
        let left = orders.compare(&book, &Order::Move(to), format_args!("to {to}"));
        let wanted = match place(to) {
            None => 24,
            Some(_) if to <= 2025_06_15 => 27,
            Some(_) => 0,
        };
        assert_eq!(left.number, wanted, "{to}");
    }
    // Numbers whose low bits are a date.
    for high in [1 << 32, 1 << 40, 1 << 63, u64::MAX << 32] {
        let to = high | 2026_01_01;
        orders.refused(&book, &Order::Move(to), (24, 0), format_args!("to {to}"));
    }
    orders.has_seen(&[0, 24, 27], 100);
}

#[test]
fn an_empty_book_moves_to_any_later_date() {
    let mut orders = Orders::fixed("an empty book");
    let book = LentBook::of(client(VALUED), &[], 0);
    for to in dates().iter().step_by(37) {
        let order = Order::Move(*to);
        if *to > VALUED {
            orders.accepted(&book, &order, &[], format_args!("to {to}"));
        } else {
            orders.refused(&book, &order, (27, 0), format_args!("to {to}"));
        }
    }
}

#[test]
fn any_book_to_any_date() {
    let mut orders = Orders::new("any book to any date", 0x0E31);
    for round in 0..20 {
        for shape in SHAPES.into_iter().chain([ANY; 5]) {
            let date = valuation_date(&mut orders.random);
            let size = orders.random.place(if round == 0 { 257 } else { 12 });
            let rows = holdings(&mut orders.random, &shape, date, size);
            let book = LentBook::of(participant(date), &rows, size);
            for _ in 0..8 {
                let years = orders.random.below(40);
                let days = orders.random.within(&[(0, 3), (0, 400)]) as i64;
                let to = days_after(anniversary(date, years), days);
                orders.compare(
                    &book,
                    &Order::Move(to),
                    format_args!("{}, to {to}", shape.name),
                );
            }
        }
    }
    orders.has_seen(&[0, 7, 27], 20);
}
