//! Sheets in the papers' numbers, and the papers' rates and pairs, typed from them. All are valued on 2025-01-01,
//! and approved participants' where no head is given.

use margin_calculator::{NOT_RATED, Row, Sheet, VALUED, calendar, client, participant};
use margin_host::{Head, Line};

use super::Run;
use super::lent::Lent;

pub const LONG: u64 = 0;
pub const SHORT: u64 = 1;
pub const BOND: u64 = 0;
pub const COUPON: u64 = 1;
pub const RESIDUAL: u64 = 2;
pub const CA: u64 = 0;
pub const ON: u64 = 7;
pub const QC: u64 = 9;
pub const US: u64 = 11;
pub const GB: u64 = 12;
pub const CAD: u64 = 0;
pub const USD: u64 = 1;
pub const GBP: u64 = 2;
pub const SINGLE_A: u64 = 0;
pub const LOWER: u64 = 1;

/// An approved participant's account and a client's.
pub const HEADS: [Head; 2] = [participant(VALUED), client(VALUED)];

/// A government's holding in CAD.
pub fn holding(side: u64, kind: u64, issuer: u64, maturity: u64, value: u64) -> Row {
    Row {
        side,
        kind,
        issuer,
        maturity,
        value,
        currency: CAD,
        rating: NOT_RATED,
    }
}

/// A sheet of holdings, each with its price, and of lines.
pub fn sheet(holdings: &[(Row, u64)], lines: &[(u64, u64, u64)]) -> Sheet {
    sheet_under(participant(VALUED), holdings, lines)
}

/// The same under this head.
pub fn sheet_under(head: Head, holdings: &[(Row, u64)], lines: &[(u64, u64, u64)]) -> Sheet {
    let mut sheet = Sheet::empty(head);
    for (holding, price) in holdings {
        sheet.add_holding(*holding, *price);
    }
    for &(long, short, amount) in lines {
        sheet.add_line(Line {
            long,
            short,
            amount,
        });
    }
    sheet
}

/// A leg of a pair: kind, issuer, maturity and currency.
pub type Leg = (u64, u64, u64, u64);

/// The same with a rating.
pub type RatedLeg = (u64, u64, u64, u64, u64);

/// A government's leg, which has no rating.
pub fn unrated((kind, issuer, maturity, currency): Leg) -> RatedLeg {
    (kind, issuer, maturity, currency, NOT_RATED)
}

/// The holding of one cent that a government's leg is.
pub fn one_cent(side: u64, leg: Leg) -> Row {
    rated_cent(side, unrated(leg))
}

/// The holding of one cent that a leg is.
pub fn rated_cent(side: u64, (kind, issuer, maturity, currency, rating): RatedLeg) -> Row {
    Row {
        currency,
        rating,
        ..holding(side, kind, issuer, maturity, 1)
    }
}

/// Governments' legs: a long with its price and a short at price 0, of one cent each, with a line.
pub fn two_legs(long: Leg, price: u64, short: Leg) -> Lent {
    rated_legs(participant(VALUED), unrated(long), price, unrated(short))
}

/// Under a head a long with its price and a short at price 0, of one cent each, with a line.
pub fn rated_legs(head: Head, long: RatedLeg, price: u64, short: RatedLeg) -> Lent {
    legs_under(head, long, price, short, &[(0, 1, 1)])
}

/// The same without a line.
pub fn unpaired_legs(head: Head, long: RatedLeg, price: u64, short: RatedLeg) -> Lent {
    legs_under(head, long, price, short, &[])
}

fn legs_under(
    head: Head,
    long: RatedLeg,
    price: u64,
    short: RatedLeg,
    lines: &[(u64, u64, u64)],
) -> Lent {
    let legs = [
        (rated_cent(LONG, long), price),
        (rated_cent(SHORT, short), 0),
    ];
    Lent::of(&sheet_under(head, &legs, lines))
}

/// Every kind, currency and rating of some corporations, at this maturity.
pub fn corporate_legs(corporations: &[u64], maturity: u64) -> Vec<RatedLeg> {
    let mut legs = Vec::new();
    for &issuer in corporations {
        for kind in [BOND, COUPON, RESIDUAL] {
            for currency in [CAD, USD, GBP] {
                legs.extend(
                    [SINGLE_A, LOWER].map(|rating| (kind, issuer, maturity, currency, rating)),
                );
            }
        }
    }
    legs
}

/// Every kind and currency of some governments, at this maturity.
pub fn government_legs(maturity: u64) -> Vec<RatedLeg> {
    let mut legs = Vec::new();
    for issuer in [CA, ON, QC, US, GB] {
        for kind in [BOND, COUPON, RESIDUAL] {
            legs.extend(
                [CAD, USD, GBP].map(|currency| (kind, issuer, maturity, currency, NOT_RATED)),
            );
        }
    }
    legs
}

/// The paper's table, typed from it: the first day, the last day, and the rates of Canada bond, Canada
/// strip, province bond and province strip.
const TABLE: [(u64, u64, [u64; 4]); 5] = [
    (2026_01_02, 2028_01_01, [1_460, 2_190, 4_380, 6_570]),
    (2028_01_02, 2032_01_01, [2_920, 4_380, 5_840, 8_760]),
    (2032_01_02, 2036_01_01, [5_840, 8_760, 7_300, 10_950]),
    (2036_01_02, 2044_12_31, [5_840, 8_760, 7_300, 10_950]),
    (2045_01_01, 2125_01_01, [5_840, 17_520, 7_300, 21_900]),
];

/// Every maturity that is held.
pub fn maturities() -> impl Iterator<Item = u64> {
    let held = |date: &u64| VALUED < *date && *date <= 2125_01_01;
    calendar::dates().iter().copied().filter(held)
}

/// The paper's rate, in which US and GB have the columns of Canada.
pub fn paper_rate(kind: u64, issuer: u64, maturity: u64) -> u64 {
    let of_a_province = ![CA, US, GB].contains(&issuer);
    let column = usize::from(kind > 0) + if of_a_province { 2 } else { 0 };
    match TABLE
        .iter()
        .find(|(first, last, _)| (*first..=*last).contains(&maturity))
    {
        Some((_, _, rates)) => rates[column],
        None => [4, 6, 8, 12][column] * calendar::days_between(VALUED, maturity),
    }
}

/// The paper's periods, as far as two maturities are concerned.
fn same_period(one: u64, other: u64) -> bool {
    [2026_01_01, 2028_01_01, 2032_01_01, 2036_01_01]
        .iter()
        .all(|end| (one <= *end) == (other <= *end))
}

/// The papers' rate of a pair and what it saves, where it is allowed.
pub fn paper_pair(long: Leg, short: Leg) -> Option<(u64, u64)> {
    let [one, other] =
        [long, short].map(|(kind, issuer, maturity, _)| paper_rate(kind, issuer, maturity));
    let ((first, issuer, maturity, currency), (second, partner, other_maturity, other_currency)) =
        (long, short);
    if !same_period(maturity, other_maturity) || currency != other_currency {
        return None;
    }
    let rate = if currency == CAD {
        let of_canada = [issuer, partner].map(|issuer| issuer == CA);
        let bonds = [first, second].map(|kind| kind == BOND);
        let of_provinces = of_canada == [false; 2];
        let allowed = issuer <= 10
            && partner <= 10
            && bonds != [true; 2]
            && (!of_provinces || bonds == [false; 2] || issuer == partner);
        allowed.then_some(if of_canada[0] == of_canada[1] {
            one.abs_diff(other)
        } else {
            (one + other) / 2
        })
    } else {
        let government = issuer == partner && [CA, US, GB].contains(&issuer);
        let allowed = government && (first == BOND) != (second == BOND);
        allowed.then_some(one.abs_diff(other))
    };
    rate.map(|rate| (rate, one + other - rate))
}

/// A long and a short of governments, of one cent each, with a line, in either account: judged as the papers say, by
/// which a client has what is in CAD alone.
pub fn one_pair(run: &mut Run, long: Leg, short: Leg) {
    let wanted = paper_pair(long, short);
    let in_cad = wanted.filter(|_| long.3 == CAD);
    for (head, wanted) in HEADS.into_iter().zip([wanted, in_cad]) {
        pair_under(run, head, unrated(long), unrated(short), wanted);
    }
}

/// Under a head a long and a short of one cent with a line: refused with 13, or accepted with the pair's rate and, at
/// one unit less than it saves, uncovered.
pub fn pair_under(
    run: &mut Run,
    head: Head,
    long: RatedLeg,
    short: RatedLeg,
    wanted: Option<(u64, u64)>,
) {
    let what = format_args!("{long:?} with {short:?}, {head:?}");
    let legs = |price| rated_legs(head, long, price, short);
    match wanted {
        Some((rate, saving)) => {
            run.accepted(&legs(saving), rate, what);
            run.refused(&legs(saving - 1), (16, 0, 1), what);
        }
        None => run.refused(&legs(43_800), (13, 0, 0), what),
    }
}
