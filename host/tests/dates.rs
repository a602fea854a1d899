//! Document 02 b): valuation dates, maturities and the terms between them, and the turns of 24 and 7.

mod support;

use margin_calculator::{Sheet, participant};
use margin_host::Line;
use support::faults::{HOLDINGS, VALUATION, comes_after, sound};
use support::lent::{Lent, NAMES, OF_HOLDINGS};
use support::sheets::{BOND, CA, COUPON, LONG, ON, QC, RESIDUAL, SHORT, holding};
use support::{Run, column};

/// Numbers that are no date.
const NO_DATES: [u64; 22] = [
    0,
    1,
    365,
    2_000,
    36_500,
    101,
    1899_12_31,
    1900_00_01,
    1900_02_29,
    2025_01_00,
    2025_01_31 + 1,
    2025_02_29,
    2025_02_30,
    2025_04_31,
    2025_13_01,
    2100_02_29,
    2299_12_31 + 1,
    2300_01_01,
    9999_99_99,
    12025_01_01,
    (1 << 32) + 2025_01_01,
    u64::MAX,
];

/// One holding of one cent on a valuation date.
fn one(date: u64, (kind, issuer, maturity): (u64, u64, u64)) -> Lent {
    let holding = holding(LONG, kind, issuer, maturity, 1);
    Lent::of(&Sheet::of_rows(participant(date), &[holding], 0))
}

#[test]
fn rates_by_anniversaries() {
    let mut run = Run::fixed("rates by anniversaries");
    let rates = [
        // 366 days to the anniversary are a year, and are multiplied.
        (2024_01_01, (BOND, CA, 2025_01_01), 1_464),
        (2024_01_01, (COUPON, CA, 2025_01_01), 2_196),
        (2024_01_01, (BOND, ON, 2025_01_01), 2_928),
        (2024_01_01, (RESIDUAL, ON, 2025_01_01), 4_392),
        (2024_01_01, (BOND, ON, 2025_01_02), 4_380),
        (2024_02_28, (BOND, CA, 2025_02_28), 1_464),
        (2024_02_28, (BOND, ON, 2025_03_01), 4_380),
        // From a leap day 366 days are past the anniversary.
        (2024_02_29, (BOND, CA, 2025_02_28), 1_460),
        (2024_02_29, (BOND, ON, 2025_02_28), 2_920),
        (2024_02_29, (BOND, ON, 2025_03_01), 4_380),
        (2024_02_29, (BOND, CA, 2027_02_28), 1_460),
        (2024_02_29, (BOND, CA, 2027_03_01), 2_920),
        (2024_02_29, (COUPON, CA, 2044_02_28), 8_760),
        (2024_02_29, (COUPON, CA, 2044_02_29), 17_520),
        (2080_02_29, (COUPON, CA, 2100_02_27), 8_760),
        (2080_02_29, (COUPON, CA, 2100_02_28), 17_520),
        (2024_02_29, (RESIDUAL, QC, 2124_02_29), 21_900),
        (2000_02_29, (RESIDUAL, QC, 2100_02_28), 21_900),
        // A maturity on a leap day.
        (2023_02_28, (BOND, ON, 2024_02_28), 2_920),
        (2023_02_28, (BOND, ON, 2024_02_29), 4_380),
        (2023_03_01, (BOND, ON, 2024_02_29), 2_920),
        (2024_02_28, (BOND, CA, 2024_02_29), 4),
        (2004_02_29, (COUPON, CA, 2024_02_29), 17_520),
        // The last years of centuries.
        (1900_02_28, (BOND, CA, 1900_03_01), 4),
        (2000_02_28, (BOND, CA, 2000_03_01), 8),
        (2100_02_28, (BOND, CA, 2100_03_01), 4),
        (2000_02_29, (BOND, CA, 2000_03_01), 4),
        // The ends of the calendar.
        (1900_01_01, (BOND, CA, 1900_01_02), 4),
        (1900_01_01, (RESIDUAL, ON, 2000_01_01), 21_900),
        (2299_12_30, (BOND, CA, 2299_12_31), 4),
        (2298_12_31, (BOND, CA, 2299_12_31), 1_460),
        (2290_01_01, (COUPON, ON, 2299_12_31), 10_950),
        (2279_12_31, (COUPON, CA, 2299_12_31), 17_520),
        (2199_12_31, (COUPON, CA, 2299_12_31), 17_520),
    ];
    for (date, holding, rate) in rates {
        let what = format_args!("{holding:?}, valued on {date}");
        run.accepted(&one(date, holding), rate, what);
    }
}

#[test]
fn maturities_that_are_not_held() {
    let mut run = Run::fixed("maturities that are not held");
    for (date, maturity) in [
        (2025_01_01, 2025_01_01),
        (2025_01_01, 2024_12_31),
        (2025_01_01, 1900_01_01),
        (2025_01_01, 2125_01_02),
        (2025_01_01, 2299_12_31),
        (2024_02_29, 2024_02_29),
        (2024_02_29, 2124_03_01),
        (2024_02_28, 2124_02_29),
        (2000_02_29, 2100_03_01),
        (1900_01_01, 2000_01_02),
        (2199_12_30, 2299_12_31),
        (2299_12_31, 2299_12_31),
        (2299_12_31, 1900_01_01),
    ] {
        let what = format_args!("{maturity}, valued on {date}");
        run.refused(&one(date, (COUPON, CA, maturity)), (7, 0, 0), what);
    }
}

#[test]
fn pairs_on_both_sides_of_an_anniversary() {
    // The rates are equal on both sides of 11 years, so only the period tells them apart.
    let mut run = Run::fixed("pairs about 11 years");
    for (date, long, short, allowed) in [
        (2024_02_29, 2035_02_28, 2031_03_01, true),
        (2024_02_29, 2035_02_28, 2035_03_01, false),
        (2024_02_28, 2035_02_28, 2035_03_01, false),
        (2024_03_01, 2035_02_28, 2035_03_01, true),
        (2021_02_28, 2032_02_28, 2032_02_29, false),
        (2021_03_01, 2032_02_28, 2032_02_29, true),
    ] {
        let coupon = |side, maturity| holding(side, COUPON, ON, maturity, 1);
        let mut sheet = Sheet::empty(participant(date));
        sheet.add_holding(coupon(LONG, long), 21_900);
        sheet.add_holding(coupon(SHORT, short), 0);
        sheet.add_line(Line {
            long: 0,
            short: 1,
            amount: 1,
        });
        let what = format_args!("{long} with {short}, valued on {date}");
        if allowed {
            run.accepted(&Lent::of(&sheet), 0, what);
        } else {
            run.refused(&Lent::of(&sheet), (13, 0, 0), what);
        }
    }
}

#[test]
fn numbers_that_are_no_date() {
    let mut run = Run::fixed("numbers that are no date");
    for number in NO_DATES {
        let mut sheet = sound();
        sheet.head.date = number;
        let what = format_args!("valued on {number}");
        run.refused(&Lent::of(&sheet), (24, 0, 0), what);
        let empty = Sheet::empty(participant(number));
        run.refused(&Lent::of(&empty), (24, 0, 0), what);
        for holding in 0..HOLDINGS {
            let mut sheet = sound();
            sheet.maturity[holding as usize] = number;
            let what = format_args!("{number} at holding {holding}");
            run.refused(&Lent::of(&sheet), (24, holding, 0), what);
        }
    }
    for date in [1900_01_01, 2000_02_29, 2024_02_29, 2299_12_31] {
        let empty = Sheet::empty(participant(date));
        run.accepted(&Lent::of(&empty), 0, format_args!("valued on {date}"));
    }
}

#[test]
fn the_turn_of_the_valuation_date() {
    let mut run = Run::fixed("the turn of the valuation date");
    comes_after(&mut run, VALUATION, &[1, 3, 9, 2]);
}

#[test]
fn the_turn_of_a_maturity() {
    // The column, the number there and the refusal of another fault: of one holding 24 and 7 come after 4 to 6
    // and before 8, 23 and 10, each holding is finished before the next, and all come before the first line.
    let mut run = Run::fixed("the turn of a maturity");
    let faults = [
        (0, 2, 4),
        (1, 3, 5),
        (2, 13, 6),
        (4, 0, 8),
        (6, 3, 23),
        (5, 43_801, 10),
    ];
    for (maturity, own) in [(2025_02_29, 24), (2024_02_30, 24), (2025_01_01, 7)] {
        for (at, number, refusal) in faults {
            for (holding, other) in [(0, 0), (3, 3), (3, 2), (3, 4), (13, 13), (13, 0), (0, 13)] {
                let mut sheet = sound();
                sheet.maturity[holding] = maturity;
                column(&mut sheet, at)[other] = number;
                let wanted = if other < holding || other == holding && refusal < 7 {
                    (refusal, other as u64, 0)
                } else {
                    (own, holding as u64, 0)
                };
                let what = format_args!("{own} at {holding}, {refusal} at {other}");
                run.refused(&Lent::of(&sheet), wanted, what);
            }
        }
        for (at, name) in NAMES.iter().enumerate().skip(OF_HOLDINGS) {
            let mut sheet = sound();
            sheet.maturity[13] = maturity;
            column(&mut sheet, at)[0] = u64::MAX;
            let what = format_args!("{name} at fault");
            run.refused(&Lent::of(&sheet), (own, 13, 0), what);
        }
    }
}

#[test]
fn a_book_through_its_life() {
    // A bond and a coupon of ON, each of 1,000 cents, as their maturity comes nearer.
    let mut run = Run::fixed("a book through its life");
    let rows = [BOND, COUPON].map(|kind| holding(LONG, kind, ON, 2030_06_24, 1_000));
    for (date, units) in [
        (1930_06_24, 7_300 + 21_900),
        (2010_06_24, 7_300 + 21_900),
        (2010_06_25, 7_300 + 10_950),
        (2023_06_23, 7_300 + 10_950),
        (2023_06_24, 5_840 + 8_760),
        (2027_06_24, 4_380 + 6_570),
        (2029_06_23, 4_380 + 6_570),
        (2029_06_24, 8 * 365 + 12 * 365),
        (2030_06_23, 8 + 12),
    ] {
        let book = Lent::of(&Sheet::of_rows(participant(date), &rows, 0));
        let what = format_args!("valued on {date}");
        run.accepted(&book, 1_000 * units, what);
    }
    for date in [1930_06_23, 2030_06_24, 2030_06_25, 2299_12_31] {
        let book = Lent::of(&Sheet::of_rows(participant(date), &rows, 0));
        run.refused(&book, (7, 0, 0), format_args!("valued on {date}"));
    }
}
