//! Document 01's worked cases, edges and shortcuts with its figures, valued on 2025-01-01, and cases next to
//! them.

mod support;

use margin_calculator::{Account, Position, Sheet, VALUED, participant};
use margin_host::Line;
use support::Run;
use support::lent::{Left, Lent};
use support::sheets::{
    BOND, CA, CAD, COUPON, GB, LONG, ON, QC, RESIDUAL, SHORT, US, holding, maturities, one_pair,
    paper_rate, sheet, two_legs,
};

/// The file that the paper prints.
fn the_file() -> Sheet {
    sheet(
        &[
            (holding(LONG, COUPON, CA, 2030_06_24, 1_000_000), 0),
            (holding(SHORT, BOND, CA, 2030_06_24, 600_000), 5_840),
            (holding(SHORT, RESIDUAL, ON, 2030_06_24, 300_000), 6_570),
        ],
        &[(0, 1, 600_000), (0, 2, 300_000)],
    )
}

#[test]
fn the_printed_file() {
    let mut run = Run::fixed("the printed file");
    let left = run.compare(&Lent::of(&the_file()), format_args!("as printed"));
    assert_eq!(left.number, 0);
    assert_eq!(left.figures(), (3_285_000_000, 22_500));
    assert_eq!(Left::entries(&left.remainder), [100_000, 0, 0]);
    assert_eq!(Left::entries(&left.ranking), [0, 1, 2]);
    let mut third = the_file();
    third.price[2] = 6_569;
    run.refused(
        &Lent::of(&third),
        (16, 0, 2),
        format_args!("third price 6,569"),
    );
    let mut first = the_file();
    first.price[0] = 1;
    run.refused(&Lent::of(&first), (17, 0, 0), format_args!("first price 1"));
    let mut amount = the_file();
    amount.amount[0] = 600_001;
    run.refused(
        &Lent::of(&amount),
        (15, 0, 0),
        format_args!("first amount 600,001"),
    );
}

#[test]
fn rates_at_the_edges() {
    let mut run = Run::fixed("rates at the edges");
    let edges = [
        (BOND, CA, 2026_01_01, 1_460),
        (BOND, CA, 2026_01_02, 1_460),
        (BOND, ON, 2026_01_01, 2_920),
        (BOND, ON, 2026_01_02, 4_380),
        (BOND, CA, 2028_01_01, 1_460),
        (BOND, CA, 2028_01_02, 2_920),
        (COUPON, CA, 2025_01_02, 6),
        (COUPON, CA, 2044_12_31, 8_760),
        (COUPON, CA, 2045_01_01, 17_520),
        (RESIDUAL, ON, 2125_01_01, 21_900),
        (BOND, CA, 2025_01_02, 4),
    ];
    for (kind, issuer, maturity, rate) in edges {
        for side in [LONG, SHORT] {
            let one = sheet(&[(holding(side, kind, issuer, maturity, 1), 0)], &[]);
            run.accepted(&Lent::of(&one), rate, format_args!("{one:?}"));
        }
    }
}

#[test]
fn every_rate_of_the_calculator() {
    let account = Account::of(participant(VALUED)).expect("an account");
    for maturity in maturities() {
        for kind in [BOND, COUPON, RESIDUAL] {
            for issuer in 0..=12 {
                let rate = paper_rate(kind, issuer, maturity);
                let holding = holding(LONG, kind, issuer, maturity, 1);
                let position = Position::of(&account, &holding);
                assert_eq!(position.rate, rate, "{kind}, {issuer}, {maturity}");
                assert_eq!(rate % 2, 0, "a half sum is exact: {maturity}");
            }
        }
    }
}

#[test]
fn every_rate_of_every_maturity() {
    let mut run = Run::fixed("every rate of every maturity");
    for (days, maturity) in (1..).zip(maturities()) {
        for kind in [BOND, COUPON, RESIDUAL] {
            for issuer in [CA, 1 + days % 10, US, GB] {
                let one = holding(days % 2, kind, issuer, maturity, 1);
                let rate = paper_rate(kind, issuer, maturity);
                run.accepted(
                    &Lent::of(&sheet(&[(one, 0)], &[])),
                    rate,
                    format_args!("{kind}, {issuer}, {maturity}"),
                );
            }
        }
    }
}

#[test]
fn every_pair_at_the_ends_of_periods() {
    let mut run = Run::fixed("every pair at the ends of periods");
    let maturities = [
        2025_01_02, 2025_07_20, 2026_01_01, 2026_01_02, 2028_01_01, 2028_01_02, 2032_01_01,
        2032_01_02, 2036_01_01, 2036_01_02, 2044_12_31, 2045_01_01, 2125_01_01,
    ];
    let mut legs = Vec::new();
    for maturity in maturities {
        for kind in [BOND, COUPON, RESIDUAL] {
            legs.extend([CA, 1, ON, 10].map(|issuer| (kind, issuer, maturity, CAD)));
        }
    }
    for &long in &legs {
        for &short in &legs {
            one_pair(&mut run, long, short);
        }
    }
}

#[test]
fn cents_are_rounded_up_once() {
    let mut run = Run::fixed("cents are rounded up once");
    let bond = |value| (holding(LONG, BOND, CA, 2025_01_02, value), 0);
    for (value, cents) in [(1, 1), (36_500, 1), (36_501, 2), (73_000, 2)] {
        let left = run.compare(
            &Lent::of(&sheet(&[bond(value)], &[])),
            format_args!("{value}"),
        );
        assert_eq!(left.figures(), (4 * value, cents));
    }
    // Two holdings and two lines of a few units each are one cent together.
    let both = sheet(&[bond(1), bond(1)], &[]);
    let left = run.compare(&Lent::of(&both), format_args!("two bonds"));
    assert_eq!(left.figures(), (8, 1));
    let pair = |side, maturity, price| (holding(side, COUPON, CA, maturity, 1), price);
    let lines = sheet(
        &[
            pair(LONG, 2025_01_03, 12),
            pair(LONG, 2025_01_03, 12),
            pair(SHORT, 2025_01_02, 0),
            pair(SHORT, 2025_01_02, 0),
        ],
        &[(0, 2, 1), (1, 3, 1)],
    );
    let left = run.compare(&Lent::of(&lines), format_args!("two lines"));
    assert_eq!((left.number, left.figures()), (0, (12, 1)));
}

#[test]
fn maturities_and_values_outside_their_ranges() {
    let mut run = Run::fixed("maturities and values outside their ranges");
    for (maturity, value, refusal) in [
        (2025_01_01, 1, 7),
        (2125_01_02, 1, 7),
        (2025_01_02, 0, 8),
        (2025_01_02, 100_000_000_001, 8),
        (2025_01_01, 100_000_000_001, 7),
    ] {
        let one = sheet(&[(holding(LONG, COUPON, CA, maturity, value), 0)], &[]);
        run.refused(&Lent::of(&one), (refusal, 0, 0), format_args!("{one:?}"));
    }
}

#[test]
fn pairs_at_the_edges() {
    let mut run = Run::fixed("pairs at the edges");
    // Long and short of one cent, the price of the long, and the pair's rate.
    let leg = |(kind, issuer, maturity)| (kind, issuer, maturity, CAD);
    let pairs = [
        (
            (COUPON, CA, 2038_09_10),
            (COUPON, CA, 2046_11_27),
            17_520,
            8_760,
        ),
        (
            (COUPON, ON, 2030_06_24),
            (RESIDUAL, QC, 2030_06_24),
            17_520,
            0,
        ),
        (
            (COUPON, CA, 2030_06_24),
            (RESIDUAL, ON, 2030_06_24),
            6_570,
            6_570,
        ),
        (
            (BOND, ON, 2030_06_24),
            (COUPON, ON, 2030_06_24),
            11_680,
            2_920,
        ),
    ];
    for (long, short, price, rate) in pairs {
        let what = format_args!("{long:?} with {short:?}");
        run.accepted(&two_legs(leg(long), price, leg(short)), rate, what);
    }
    let refused = [
        ((COUPON, CA, 2036_01_01), (COUPON, CA, 2036_01_02)),
        ((BOND, CA, 2030_06_24), (BOND, CA, 2030_06_24)),
        ((BOND, CA, 2030_06_24), (BOND, ON, 2030_06_24)),
        ((BOND, ON, 2030_06_24), (BOND, QC, 2030_06_24)),
        ((COUPON, CA, 2026_01_01), (COUPON, CA, 2026_01_02)),
        ((RESIDUAL, ON, 2028_01_01), (COUPON, QC, 2028_01_02)),
        ((RESIDUAL, ON, 2032_01_01), (BOND, CA, 2032_01_02)),
    ];
    for (long, short) in refused {
        let what = format_args!("{long:?} with {short:?}");
        run.refused(&two_legs(leg(long), 43_800, leg(short)), (13, 0, 0), what);
    }
}

/// ON, 2030-06-24, 1,000 cents each: long coupon and bond, short coupon and bond.
fn eighty_or_forty(prices: [u64; 4], lines: &[(u64, u64, u64)]) -> Sheet {
    let legs = [(LONG, COUPON), (LONG, BOND), (SHORT, COUPON), (SHORT, BOND)];
    let mut holdings = Vec::new();
    for ((side, kind), price) in legs.into_iter().zip(prices) {
        holdings.push((holding(side, kind, ON, 2030_06_24, 1_000), price));
    }
    sheet(&holdings, lines)
}

#[test]
fn largest_saving_first_costs_margin() {
    let mut run = Run::fixed("largest saving first");
    let crossed = eighty_or_forty(
        [8_760, 2_920, 8_760, 2_920],
        &[(0, 3, 1_000), (1, 2, 1_000)],
    );
    run.accepted(&Lent::of(&crossed), 40 * 146_000, format_args!("40 cents"));
    // Coupon with coupon leaves both bonds, 80 cents; no prices show that it is the least.
    let lines = &[(0, 2, 1_000)];
    let covered = eighty_or_forty([8_760, 2_920, 8_760, 2_920], lines);
    run.refused(
        &Lent::of(&covered),
        (17, 0, 0),
        format_args!("80 cents, covered"),
    );
    let equal = eighty_or_forty([8_760, 0, 8_760, 0], lines);
    run.refused(
        &Lent::of(&equal),
        (16, 0, 3),
        format_args!("80 cents, totals equal"),
    );
    let other = eighty_or_forty([17_520, 0, 0, 0], lines);
    run.refused(
        &Lent::of(&other),
        (16, 1, 2),
        format_args!("80 cents, totals equal"),
    );
}

#[test]
fn cover_is_asked_of_pairs_in_no_line() {
    let mut run = Run::fixed("pairs in no line");
    // The line covers and the totals agree, but the short coupon would serve the second long better.
    let legs = |price| {
        sheet(
            &[
                (holding(LONG, COUPON, CA, 2025_04_11, 1_000), 0),
                (holding(LONG, COUPON, CA, 2025_07_20, 1_000), 0),
                (holding(SHORT, COUPON, CA, 2025_07_20, 1_000), price),
            ],
            &[],
        )
    };
    let mut worse = legs(1_200);
    worse.add_line(Line {
        long: 0,
        short: 2,
        amount: 1_000,
    });
    run.refused(
        &Lent::of(&worse),
        (16, 1, 2),
        format_args!("the line covers"),
    );
    let mut best = legs(2_400);
    best.add_line(Line {
        long: 1,
        short: 2,
        amount: 1_000,
    });
    run.accepted(&Lent::of(&best), 600_000, format_args!("the better long"));
}

#[test]
fn cover_is_not_asked_across_a_period_end() {
    // The rates are equal on both sides of 11 years, so only the period tells the two alike apart.
    let mut run = Run::fixed("an uncovered pair after an equal rate");
    let coupon = |side, maturity| (holding(side, COUPON, CA, maturity, 1_000), 0);
    for (single, alike) in [(SHORT, LONG), (LONG, SHORT)] {
        for (maturity, partner) in [(2036_01_01, 0), (2036_01_02, 1)] {
            let three = [
                coupon(alike, 2036_01_01),
                coupon(alike, 2036_01_02),
                coupon(single, maturity),
            ];
            let (long, short) = if alike == LONG {
                (partner, 2)
            } else {
                (2, partner)
            };
            run.refused(
                &Lent::of(&sheet(&three, &[])),
                (16, long, short),
                format_args!("side {single} alone, {maturity}"),
            );
        }
    }
}

/// Three prices on holdings alike, and the first of them below 20.
const THREE_PRICES: [([u64; 3], Option<u64>); 11] = [
    ([40, 30, 20], None),
    ([30, 20, 19], Some(2)),
    ([30, 19, 10], Some(1)),
    ([19, 18, 17], Some(0)),
    ([20, 20, 20], None),
    ([19, 19, 19], Some(0)),
    ([20, 30, 40], None),
    ([19, 20, 30], Some(0)),
    ([17, 18, 19], Some(0)),
    ([30, 19, 20], Some(1)),
    ([20, 20, 19], Some(2)),
];

#[test]
fn of_three_alike_the_first_uncovered() {
    // A pair saves 17,520 and the fourth holding is priced 17,500, so each of the three needs 20.
    let mut run = Run::fixed("three alike");
    let coupon = |side, price| (holding(side, COUPON, CA, 2038_09_10, 1_000), price);
    for (prices, first) in THREE_PRICES {
        let longs = prices.map(|price| coupon(LONG, price));
        let shorts = prices.map(|price| coupon(SHORT, price));
        let of_longs = [longs[0], longs[1], longs[2], coupon(SHORT, 17_500)];
        let of_shorts = [coupon(LONG, 17_500), shorts[0], shorts[1], shorts[2]];
        let (long, short) = match first {
            Some(first) => ((16, first, 3), (16, 0, 1 + first)),
            None => ((17, 0, 0), (17, 0, 0)),
        };
        for (four, wanted) in [(of_longs, long), (of_shorts, short)] {
            let what = format_args!("{prices:?}, {wanted:?}");
            run.refused(&Lent::of(&sheet(&four, &[])), wanted, what);
        }
    }
}

#[test]
fn empty_book() {
    let mut run = Run::fixed("the empty book");
    run.accepted(&Lent::of(&sheet(&[], &[])), 0, format_args!("no line"));
    run.refused(
        &Lent::of(&sheet(&[], &[(0, 0, 1)])),
        (11, 0, 0),
        format_args!("a line"),
    );
}

#[test]
fn two_holdings_alike_are_two_holdings() {
    let mut run = Run::fixed("two holdings alike");
    let coupon = |side, price| (holding(side, COUPON, QC, 2035_01_01, 700), price);
    let four = [
        coupon(LONG, 21_900),
        coupon(SHORT, 0),
        coupon(LONG, 21_900),
        coupon(SHORT, 0),
    ];
    run.accepted(
        &Lent::of(&sheet(&four, &[(0, 1, 700), (2, 3, 700)])),
        0,
        format_args!("paired"),
    );
    let twice = sheet(&four, &[(0, 1, 700), (0, 3, 700)]);
    run.refused(
        &Lent::of(&twice),
        (15, 1, 0),
        format_args!("one long twice"),
    );
}
