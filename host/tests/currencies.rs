//! Document 02 a): currencies, US and GB, and the pairs of paragraph 4 beside those of paragraph 2.

mod support;

use margin_calculator::samples::best_sheet;
use margin_calculator::{Row, Sheet, VALUED, participant};
use support::faults::{HOLDINGS, sound};
use support::lent::{Lent, NAMES, OF_HOLDINGS};
use support::sheets::{
    BOND, CA, CAD, COUPON, GB, GBP, LONG, Leg, ON, RESIDUAL, SHORT, US, USD, one_cent, one_pair,
    paper_pair, paper_rate, sheet, two_legs,
};
use support::{Run, column};

/// Numbers that are no currency.
const UNKNOWN: [u64; 8] = [3, 4, 255, 256, 1 << 32, 1 << 62, 1 << 63, u64::MAX];

/// Every kind, issuer and currency, at this maturity.
fn every_leg(maturity: u64) -> Vec<Leg> {
    let mut legs = Vec::new();
    for kind in [BOND, COUPON, RESIDUAL] {
        for issuer in 0..=12 {
            legs.extend([CAD, USD, GBP].map(|currency| (kind, issuer, maturity, currency)));
        }
    }
    legs
}

#[test]
fn pairs_of_paragraph_4() {
    let mut run = Run::fixed("pairs of paragraph 4");
    // Long and short of one cent, the price of the long, and the pair's rate.
    let pairs = [
        (
            (BOND, US, 2030_06_24, USD),
            (COUPON, US, 2030_06_24, USD),
            5_840,
            1_460,
        ),
        (
            (RESIDUAL, US, 2030_06_24, USD),
            (BOND, US, 2030_06_24, USD),
            5_840,
            1_460,
        ),
        (
            (BOND, US, 2046_11_27, USD),
            (COUPON, US, 2046_11_27, USD),
            11_680,
            11_680,
        ),
        (
            (BOND, US, 2046_11_27, USD),
            (COUPON, US, 2038_09_10, USD),
            11_680,
            2_920,
        ),
        (
            (BOND, US, 2025_04_11, USD),
            (COUPON, US, 2025_10_28, USD),
            800,
            1_400,
        ),
        (
            (BOND, GB, 2030_06_24, GBP),
            (COUPON, GB, 2030_06_24, GBP),
            5_840,
            1_460,
        ),
        (
            (RESIDUAL, GB, 2045_01_01, GBP),
            (BOND, GB, 2044_12_31, GBP),
            11_680,
            11_680,
        ),
        (
            (BOND, CA, 2030_06_24, USD),
            (RESIDUAL, CA, 2030_06_24, USD),
            5_840,
            1_460,
        ),
        (
            (COUPON, CA, 2026_05_16, GBP),
            (BOND, CA, 2027_09_28, GBP),
            2_920,
            730,
        ),
        (
            (BOND, US, 2030_06_24, GBP),
            (COUPON, US, 2030_06_24, GBP),
            5_840,
            1_460,
        ),
        (
            (BOND, GB, 2030_06_24, USD),
            (COUPON, GB, 2030_06_24, USD),
            5_840,
            1_460,
        ),
    ];
    for (long, short, price, rate) in pairs {
        let what = format_args!("{long:?} with {short:?}");
        run.accepted(&two_legs(long, price, short), rate, what);
        run.refused(&two_legs(long, price - 1, short), (16, 0, 1), what);
    }
}

#[test]
fn pairs_of_neither_paragraph() {
    let mut run = Run::fixed("pairs of neither paragraph");
    let pairs = [
        // Strip with strip and bond with bond.
        (
            (COUPON, US, 2030_06_24, USD),
            (RESIDUAL, US, 2030_06_24, USD),
        ),
        ((COUPON, CA, 2030_06_24, GBP), (COUPON, CA, 2030_06_24, GBP)),
        ((BOND, GB, 2030_06_24, GBP), (BOND, GB, 2030_06_24, GBP)),
        // Other governments.
        ((BOND, US, 2030_06_24, USD), (COUPON, GB, 2030_06_24, USD)),
        ((COUPON, CA, 2030_06_24, USD), (BOND, US, 2030_06_24, USD)),
        ((BOND, CA, 2030_06_24, CAD), (COUPON, US, 2030_06_24, CAD)),
        // Other currencies.
        ((BOND, CA, 2030_06_24, USD), (COUPON, CA, 2030_06_24, CAD)),
        ((COUPON, CA, 2030_06_24, CAD), (BOND, CA, 2030_06_24, GBP)),
        ((BOND, US, 2030_06_24, USD), (COUPON, US, 2030_06_24, GBP)),
        // Provinces in foreign currencies, US and GB in CAD.
        ((BOND, ON, 2030_06_24, USD), (COUPON, ON, 2030_06_24, USD)),
        (
            (COUPON, ON, 2030_06_24, GBP),
            (RESIDUAL, ON, 2030_06_24, GBP),
        ),
        ((BOND, CA, 2030_06_24, USD), (COUPON, ON, 2030_06_24, USD)),
        ((BOND, US, 2030_06_24, CAD), (COUPON, US, 2030_06_24, CAD)),
        ((COUPON, GB, 2030_06_24, CAD), (COUPON, GB, 2030_06_24, CAD)),
        ((COUPON, US, 2030_06_24, CAD), (BOND, ON, 2030_06_24, CAD)),
        // Other periods.
        ((BOND, US, 2036_01_01, USD), (COUPON, US, 2036_01_02, USD)),
        ((COUPON, GB, 2026_01_01, GBP), (BOND, GB, 2026_01_02, GBP)),
    ];
    for (long, short) in pairs {
        let what = format_args!("{long:?} with {short:?}");
        run.refused(&two_legs(long, 43_800, short), (13, 0, 0), what);
        // No cover is asked, and without a line each stands alone.
        let alone = sheet(
            &[(one_cent(LONG, long), 0), (one_cent(SHORT, short), 0)],
            &[],
        );
        let rates =
            [long, short].map(|(kind, issuer, maturity, _)| paper_rate(kind, issuer, maturity));
        run.accepted(&Lent::of(&alone), rates.iter().sum(), what);
    }
}

#[test]
fn every_pair_of_every_issuer_and_currency() {
    let mut run = Run::fixed("every issuer and currency");
    let legs: Vec<Leg> = [2038_09_10, 2046_11_27]
        .into_iter()
        .flat_map(every_leg)
        .collect();
    for &long in &legs {
        for &short in &legs {
            one_pair(&mut run, long, short);
        }
    }
}

#[test]
fn every_pair_of_paragraph_4_at_the_ends_of_periods() {
    let mut run = Run::fixed("paragraph 4 at the ends of periods");
    let mut legs = Vec::new();
    for maturity in [
        2025_01_02, 2026_01_01, 2026_01_02, 2028_01_01, 2028_01_02, 2032_01_01, 2032_01_02,
        2036_01_01, 2036_01_02, 2044_12_31, 2045_01_01, 2125_01_01,
    ] {
        for kind in [BOND, COUPON, RESIDUAL] {
            for issuer in [CA, ON, US, GB] {
                legs.extend([USD, GBP].map(|currency| (kind, issuer, maturity, currency)));
            }
        }
    }
    for &long in &legs {
        for &short in &legs {
            one_pair(&mut run, long, short);
        }
    }
}

#[test]
fn a_rate_does_not_depend_on_the_currency() {
    let mut run = Run::fixed("rates in every currency");
    for maturity in [
        2025_01_02, 2025_07_20, 2026_01_01, 2026_01_02, 2028_01_02, 2032_01_02, 2036_01_02,
        2044_12_31, 2045_01_01, 2125_01_01,
    ] {
        for leg in every_leg(maturity) {
            let (kind, issuer, _, _) = leg;
            let one = sheet(&[(one_cent(maturity % 2, leg), 0)], &[]);
            let rate = paper_rate(kind, issuer, maturity);
            run.accepted(&Lent::of(&one), rate, format_args!("{leg:?}"));
        }
    }
}

/// All legs of one period, long and then short, each of one cent.
fn every_holding(maturity: u64) -> Vec<Row> {
    let legs = every_leg(maturity);
    let longs = legs.iter().map(|leg| one_cent(LONG, *leg));
    longs
        .chain(legs.iter().map(|leg| one_cent(SHORT, *leg)))
        .collect()
}

#[test]
fn the_least_margin_is_over_both_paragraphs() {
    let mut run = Run::fixed("both paragraphs together");
    for maturity in [
        2025_04_11, 2026_05_16, 2030_06_24, 2033_03_20, 2038_09_10, 2046_11_27,
    ] {
        // In CAD each long is paired with a short alike, at 0, or a bond with a strip and a strip with a
        // bond, and so is each government abroad; the rest stands alone.
        let book = best_sheet(&Sheet::of_rows(
            participant(VALUED),
            &every_holding(maturity),
            0,
        ));
        let units = run.units(&book, format_args!("{maturity}"));
        let lines: Vec<(Leg, Leg)> = paired(&book).collect();
        for currency in [CAD, USD, GBP] {
            let of_currency = |(long, short): &&(Leg, Leg)| [long.3, short.3] == [currency; 2];
            assert!(
                lines.iter().filter(of_currency).count() >= 6,
                "{maturity}: {lines:?}"
            );
        }
        // One unit less on any price, and a pair is not covered; one more, and the totals differ.
        for holding in 0..book.side.len() {
            let mut dear = book.clone();
            dear.price[holding] += 1;
            let what = format_args!("{maturity}, {units} units, price of {holding}");
            run.refused(&Lent::of(&dear), (17, 0, 0), what);
            if book.price[holding] > 0 {
                let mut cheap = book.clone();
                cheap.price[holding] -= 1;
                assert_eq!(run.compare(&Lent::of(&cheap), what).number, 16, "{what}");
            }
        }
    }
}

/// The legs of each line of a sheet.
fn paired(sheet: &Sheet) -> impl Iterator<Item = (Leg, Leg)> + '_ {
    let leg = |number: &u64| {
        let at = *number as usize;
        (
            sheet.kind[at],
            sheet.issuer[at],
            sheet.maturity[at],
            sheet.currency[at],
        )
    };
    let lines = sheet.long.iter().zip(&sheet.short);
    lines.map(move |(long, short)| (leg(long), leg(short)))
}

#[test]
fn the_lowest_uncovered_short_of_every_leg() {
    // Every price covers everything but that of one long: the lowest short that it saves with is named.
    let mut run = Run::fixed("the lowest uncovered short");
    for maturity in [
        2025_04_11, 2026_05_16, 2030_06_24, 2033_03_20, 2038_09_10, 2046_11_27,
    ] {
        let legs = every_leg(maturity);
        let mut prices = vec![43_800; legs.len()];
        prices.resize(2 * legs.len(), 0);
        for (number, long) in legs.iter().enumerate() {
            let mut priced: Vec<(Row, u64)> = every_holding(maturity)
                .into_iter()
                .zip(prices.iter().copied())
                .collect();
            priced[number].1 = 0;
            let partner = legs
                .iter()
                .position(|short| paper_pair(*long, *short).is_some());
            let wanted = match partner {
                Some(short) => (16, number as u64, (legs.len() + short) as u64),
                None => (17, 0, 0),
            };
            let what = format_args!("{long:?}");
            run.refused(&Lent::of(&sheet(&priced, &[])), wanted, what);
        }
    }
}

#[test]
fn a_currency_outside_the_three() {
    let mut run = Run::fixed("a currency outside the three");
    for number in UNKNOWN {
        for holding in 0..HOLDINGS {
            let mut sheet = sound();
            sheet.currency[holding as usize] = number;
            let what = format_args!("{number} at holding {holding}");
            run.refused(&Lent::of(&sheet), (23, holding, 0), what);
        }
    }
}

#[test]
fn the_turn_of_23() {
    // The column, the number there and the refusal of another fault: of one holding 23 comes after 4 to 8 and
    // 24, and before 10, each holding is finished before the next, and all come before the first line.
    let mut run = Run::fixed("the turn of 23");
    let faults = [
        (0, 2, 4),
        (1, 3, 5),
        (2, 13, 6),
        (3, 2025_02_29, 24),
        (3, 2025_01_01, 7),
        (4, 100_000_000_001, 8),
        (5, 43_801, 10),
    ];
    for (at, number, refusal) in faults {
        for (holding, other) in [(0, 0), (3, 3), (3, 2), (3, 4), (13, 13), (13, 0), (0, 13)] {
            let mut sheet = sound();
            sheet.currency[holding] = 3;
            column(&mut sheet, at)[other] = number;
            let wanted = if other < holding || other == holding && refusal != 10 {
                (refusal, other as u64, 0)
            } else {
                (23, holding as u64, 0)
            };
            let what = format_args!("23 at {holding}, {refusal} at {other}");
            run.refused(&Lent::of(&sheet), wanted, what);
        }
    }
    for (at, name) in NAMES.iter().enumerate().skip(OF_HOLDINGS) {
        let mut sheet = sound();
        sheet.currency[13] = 3;
        column(&mut sheet, at)[0] = u64::MAX;
        let what = format_args!("{name} at fault");
        run.refused(&Lent::of(&sheet), (23, 13, 0), what);
    }
}
