//! Article 7204, Groups I, II, V and XI paragraphs 1 to 4: terms, rates and pairs, and who may have these.

use std::ops::RangeInclusive;

use margin_host::{Head, Refusal};

use crate::dates::{anniversary, day_count, is_date};
use crate::fraction::Fraction;
use crate::{CLIENT, FIRST_CORPORATION, PARTICIPANT, Row};

/// The years of each period but the fifth, which has no end.
const PERIOD_ENDS: [u64; 4] = [1, 3, 7, 11];
/// A strip of so many years or more has three times the bond's rate.
const LONG_TERM: u64 = 20;
/// No holding has a longer term, in years.
const LONGEST_TERM: u64 = 100;
/// What the days of a first period are divided by, in a leap year too.
const DAYS_OF_A_YEAR: u64 = 365;
/// A cent has 146,000 units, so one per cent of it has a hundredth of them.
const UNITS_OF_A_PERCENT: Fraction = Fraction::new(146_000, 100);

/// Per cent of market value by issuer class and period, as the article prints them; in the first period
/// those of governments are still to be multiplied by days / 365.
const PERCENT: [[u64; 5]; CLASSES] = [[1, 1, 2, 4, 4], [2, 3, 4, 5, 5], [3, 6, 7, 10, 10]];
const CLASSES: usize = 3;
/// What the bond's rate is multiplied by: a bond, a strip, a strip of 20 years or more.
const MULTIPLE: [Fraction; 3] = [
    Fraction::new(1, 1),
    Fraction::new(3, 2),
    Fraction::new(3, 1),
];

/// Units per cent of market value by class, multiple and period; in the first period of a government for each
/// day. The compiler works these out and stops at one that is no whole number.
const UNITS: [[[u64; 5]; 3]; CLASSES] = units_table();

const fn units_table() -> [[[u64; 5]; 3]; CLASSES] {
    let mut table = [[[0; 5]; 3]; CLASSES];
    let mut cell = 0;
    while cell < 15 * CLASSES {
        let (class, multiple, period) = (cell / 15, cell / 5 % 3, cell % 5);
        let by_the_day = period == 0 && class != Class::Corporation as usize;
        let term = if by_the_day { DAYS_OF_A_YEAR } else { 1 };
        table[class][multiple][period] = Fraction::new(PERCENT[class][period], term)
            .times(MULTIPLE[multiple])
            .times(UNITS_OF_A_PERCENT)
            .whole();
        cell += 1;
    }
    table
}

/// What a pair of a corporation has at most: 20 per cent.
const CORPORATE_CAP: u64 = Fraction::new(20, 1).times(UNITS_OF_A_PERCENT).whole();

/// The numbers of the ten provinces.
const PROVINCES: RangeInclusive<u64> = 1..=10;
/// The issuers of paragraph 4, by their numbers: Canada, the United States and the United Kingdom.
const GOVERNMENTS: [usize; 3] = [0, 11, 12];
/// The foreign currencies, by their numbers: USD and GBP.
const FOREIGN_CURRENCIES: [usize; 2] = [1, 2];

/// Among whom a holding of a government is paired, by the numbers of its currency and its issuer.
const MARKETS: [[Market; 13]; 3] = markets();

const fn markets() -> [[Market; 13]; 3] {
    let mut table = [[Market::Unpaired; 13]; 3];
    let mut issuer = 0;
    while issuer <= *PROVINCES.end() {
        table[0][issuer as usize] = Market::Domestic;
        issuer += 1;
    }
    let mut number = 0;
    while number < Market::FOREIGN {
        let (currency, government) = (FOREIGN_CURRENCIES[number / 3], GOVERNMENTS[number % 3]);
        table[currency][government] = Market::Foreign(number as u8);
        number += 1;
    }
    table
}

/// The article's group of the issuer. Any two provinces count as one class.
#[derive(Clone, Copy, Debug, PartialEq, Eq)]
pub enum Class {
    /// Group I: Canada, the United States or the United Kingdom.
    National,
    /// Group II: one of the ten provinces.
    Province,
    /// Group V: a corporation.
    Corporation,
}

/// Among whom a holding is paired.
#[derive(Clone, Copy, Debug, PartialEq, Eq)]
pub enum Market {
    /// Paragraph 2: Canada and the provinces, in Canadian dollars.
    Domestic,
    /// Paragraph 4: one government in one foreign currency. There are [`Market::FOREIGN`] of these,
    /// numbered from 0.
    Foreign(u8),
    /// Paragraph 3: one corporation in Canadian dollars, its strips and those bonds that are rated single A or
    /// higher. Corporations are numbered from 0.
    Corporate(u8),
    /// No paragraph: a province or a corporation in a foreign currency, another government in Canadian dollars,
    /// a corporation's bond of a lower rating; and in a client's account all that is not domestic.
    Unpaired,
}

impl Market {
    /// How many governments in foreign currencies there are.
    pub const FOREIGN: usize = GOVERNMENTS.len() * FOREIGN_CURRENCIES.len();

    /// The market of a holding whose numbers are in their ranges, in this account.
    #[inline]
    fn of(account: &Account, holding: &Row) -> Market {
        let market = Market::by_paragraph(holding);
        if account.participant || market == Market::Domestic {
            market
        } else {
            Market::Unpaired
        }
    }

    /// The market of a holding by the paragraph that it comes under, whoever has it.
    #[inline]
    fn by_paragraph(holding: &Row) -> Market {
        let Some(corporation) = holding.issuer.checked_sub(FIRST_CORPORATION) else {
            return MARKETS[holding.currency as usize][holding.issuer as usize];
        };
        let (strip, rated) = (holding.kind != 0, holding.rating == 0);
        if holding.currency == 0 && (strip || rated) {
            Market::Corporate(corporation as u8)
        } else {
            Market::Unpaired
        }
    }
}

/// An account on its valuation date: the anniversaries that a maturity is compared with, and whose it is.
#[derive(Clone, Copy, Debug)]
pub struct Account {
    date: u64,
    day_count: u64,
    /// The last day of each period but the fifth.
    period_ends: [u64; 4],
    /// The first day of 20 years or more.
    long_term: u64,
    /// The last maturity of a holding.
    longest_term: u64,
    /// Whether it is an approved participant's, to whom the article gives paragraphs 3 and 4. It gives paragraph 2
    /// to clients as well.
    participant: bool,
}

impl Account {
    /// The account with this head.
    ///
    /// # Errors
    ///
    /// 24 for a valuation date that is none, or else 26 for a letter that is neither.
    pub fn of(head: Head) -> Result<Account, Refusal> {
        let Head { date, letter } = head;
        if !is_date(date) {
            return Err(Refusal::DateInvalid { holding: 0 });
        }
        if letter != PARTICIPANT && letter != CLIENT {
            return Err(Refusal::AccountUnknown);
        }
        Ok(Account {
            date,
            day_count: day_count(date),
            period_ends: PERIOD_ENDS.map(|years| anniversary(date, years)),
            long_term: anniversary(date, LONG_TERM),
            longest_term: anniversary(date, LONGEST_TERM),
            participant: letter == PARTICIPANT,
        })
    }

    /// Whether a holding of this maturity is neither matured nor of too long a term.
    #[inline]
    pub(crate) fn holds(&self, maturity: u64) -> bool {
        self.date < maturity && maturity <= self.longest_term
    }
}

/// What the article asks of one holding.
#[derive(Clone, Copy, Debug)]
pub struct Position {
    /// Units per cent of market value.
    pub rate: u64,
    /// The period, 0 to 4.
    pub period: u8,
    /// The number of the issuer.
    pub issuer: u16,
    /// The class of the issuer.
    pub class: Class,
    /// Whether it is a bond or debenture, not a strip.
    pub bond: bool,
    /// Among whom it is paired in its account.
    pub market: Market,
}

impl Position {
    /// The position of a holding whose numbers are in their ranges.
    #[must_use]
    #[inline]
    pub fn of(account: &Account, holding: &Row) -> Position {
        let period = account
            .period_ends
            .iter()
            .filter(|end| holding.maturity > **end)
            .count();
        let class = if PROVINCES.contains(&holding.issuer) {
            Class::Province
        } else if holding.issuer < FIRST_CORPORATION {
            Class::National
        } else {
            Class::Corporation
        };
        let bond = holding.kind == 0;
        let multiple = match (bond, holding.maturity >= account.long_term) {
            (true, _) => 0,
            (false, false) => 1,
            (false, true) => 2,
        };
        let units = UNITS[class as usize][multiple][period];
        Position {
            rate: if period == 0 && class != Class::Corporation {
                units * (day_count(holding.maturity) - account.day_count)
            } else {
                units
            },
            period: period as u8,
            issuer: holding.issuer as u16,
            class,
            bond,
            market: Market::of(account, holding),
        }
    }
}

/// Whether a long and a short may be paired.
pub(crate) fn may_pair(one: &Position, other: &Position) -> bool {
    let kinds = match one.market {
        Market::Domestic => !(one.bond && other.bond) && provinces_pair(one, other),
        Market::Foreign(_) | Market::Corporate(_) => one.bond != other.bond,
        Market::Unpaired => false,
    };
    kinds && one.market == other.market && one.period == other.period
}

/// A provincial bond is paired with a provincial strip only if the province is the same; strips of any two are.
fn provinces_pair(one: &Position, other: &Position) -> bool {
    let of_provinces = one.class == Class::Province && other.class == Class::Province;
    let strips = !one.bond && !other.bond;
    !of_provinces || strips || one.issuer == other.issuer
}

/// The rate of a pair that is allowed, in units per cent; nothing where it is not.
#[must_use]
pub fn pair_rate(one: &Position, other: &Position) -> Option<u64> {
    may_pair(one, other).then(|| allowed_pair_rate(one, other))
}

/// What a pair saves against its two legs alone, in units per cent; nothing where it is not allowed.
#[must_use]
pub fn saving_rate(one: &Position, other: &Position) -> Option<u64> {
    pair_rate(one, other).map(|rate| one.rate + other.rate - rate)
}

#[inline]
fn allowed_pair_rate(one: &Position, other: &Position) -> u64 {
    if one.class == Class::Corporation {
        corporate_pair_rate(one.rate, other.rate)
    } else if one.class == other.class {
        one.rate.abs_diff(other.rate)
    } else {
        // Exact, because every rate is even: the tests go through them all.
        (one.rate + other.rate) / 2
    }
}

/// The lesser of the cap and the greater of the two rates.
#[inline]
pub(crate) fn corporate_pair_rate(one: u64, other: u64) -> u64 {
    CORPORATE_CAP.min(one.max(other))
}

#[cfg(test)]
mod tests {
    use margin_host::{Head, Refusal};

    use super::{Account, Market, PROVINCES, Position, pair_rate, saving_rate};
    use crate::{NOT_RATED, Row, VALUED, client, participant};

    /// A position under a head, by the numbers of its kind, issuer, maturity, currency and rating.
    fn valued(head: Head, [kind, issuer, maturity, currency, rating]: [u64; 5]) -> Position {
        let (side, value) = (0, 1);
        let holding = Row {
            side,
            kind,
            issuer,
            maturity,
            value,
            currency,
            rating,
        };
        Position::of(&Account::of(head).expect("an account"), &holding)
    }

    fn position_on(date: u64, currency: u64, kind: u64, issuer: u64, maturity: u64) -> Position {
        valued(
            participant(date),
            [kind, issuer, maturity, currency, NOT_RATED],
        )
    }

    /// A position of a corporation, by the number of its currency and of its rating.
    fn corporate(currency: u64, rating: u64, kind: u64, issuer: u64, maturity: u64) -> Position {
        valued(
            participant(VALUED),
            [kind, issuer, maturity, currency, rating],
        )
    }

    fn position_in(currency: u64, kind: u64, issuer: u64, maturity: u64) -> Position {
        position_on(VALUED, currency, kind, issuer, maturity)
    }

    fn position(kind: u64, issuer: u64, maturity: u64) -> Position {
        position_in(0, kind, issuer, maturity)
    }

    #[test]
    fn periods_hold_their_ends() {
        let maturities = [
            2025_01_02, 2026_01_01, 2026_01_02, 2028_01_01, 2028_01_02, 2032_01_01, 2032_01_02,
            2036_01_01, 2036_01_02, 2044_12_31, 2045_01_01, 2125_01_01,
        ];
        let periods = maturities.map(|maturity| position(1, 0, maturity).period);
        assert_eq!(periods, [0, 0, 1, 1, 2, 2, 3, 3, 4, 4, 4, 4]);
        let rates = maturities.map(|maturity| position(1, 0, maturity).rate);
        let [first, second, .., before_twenty, twenty, _] = rates;
        assert_eq!((first, second), (6, 2_190));
        assert_eq!((before_twenty, twenty), (8_760, 17_520));
    }

    #[test]
    fn a_leap_year_to_its_anniversary() {
        let bond = |date, maturity| {
            let position = position_on(date, 0, 0, 7, maturity);
            (position.period, position.rate)
        };
        assert_eq!(position_on(2024_01_01, 0, 0, 0, 2025_01_01).rate, 1_464);
        assert_eq!(bond(2024_02_28, 2025_02_28), (0, 8 * 366));
        assert_eq!(bond(2024_02_29, 2025_02_28), (0, 8 * 365));
        assert_eq!(bond(2024_02_29, 2025_03_01), (1, 4_380));
        assert_eq!(bond(2023_02_28, 2024_02_28), (0, 8 * 365));
        assert_eq!(bond(2023_02_28, 2024_02_29), (1, 4_380));
        assert_eq!(bond(2023_03_01, 2024_02_29), (0, 8 * 365));
    }

    #[test]
    fn what_an_account_holds() {
        let held = |date, maturity| Account::of(client(date)).is_ok_and(|on| on.holds(maturity));
        assert!(!held(2025_01_01, 2025_01_01) && held(2025_01_01, 2025_01_02));
        assert!(held(2025_01_01, 2125_01_01) && !held(2025_01_01, 2125_01_02));
        assert!(held(2000_02_29, 2100_02_28) && !held(2000_02_29, 2100_03_01));
        assert!(held(2250_06_15, 2299_12_31));
    }

    #[test]
    fn heads_without_an_account() {
        let refused = |date, letter| Account::of(Head { date, letter }).err();
        for letter in [0, 1] {
            assert_eq!(refused(VALUED, letter), None);
        }
        for letter in [2, 255, 1 << 32, u64::MAX] {
            assert_eq!(refused(VALUED, letter), Some(Refusal::AccountUnknown));
            let undated = Some(Refusal::DateInvalid { holding: 0 });
            assert_eq!(refused(2025_02_29, letter), undated);
        }
    }

    #[test]
    fn a_pair_follows_its_rule() {
        let canada = position(1, 0, 2030_06_24);
        let ontario = position(2, 7, 2030_06_24);
        let quebec = position(1, 9, 2030_06_24);
        assert_eq!(pair_rate(&quebec, &ontario), Some(0));
        assert_eq!(pair_rate(&canada, &ontario), Some(6_570));
        assert_eq!(saving_rate(&canada, &ontario), Some(6_570));
        assert_eq!(
            pair_rate(&position(0, 7, 2030_06_24), &ontario),
            Some(2_920)
        );
        assert_eq!(
            pair_rate(&position(0, 0, 2030_06_24), &position(0, 7, 2030_06_24)),
            None
        );
        assert_eq!(
            pair_rate(&position(1, 0, 2036_01_01), &position(1, 0, 2036_01_02)),
            None
        );
        assert_eq!(
            pair_rate(&position(1, 0, 2038_09_10), &position(1, 0, 2046_11_27)),
            Some(8_760)
        );
        let longest = position(2, 1, 2125_01_01);
        assert_eq!(saving_rate(&longest, &longest), Some(43_800));
    }

    #[test]
    fn a_provincial_bond_pairs_within_its_province() {
        let [bond, strip] = [0, 1].map(|kind| position(kind, 7, 2030_06_24));
        let [other_bond, other_strip] = [0, 2].map(|kind| position(kind, 9, 2030_06_24));
        let [canada_bond, canada_strip] = [0, 1].map(|kind| position(kind, 0, 2030_06_24));
        for (one, other, rate) in [
            (bond, strip, Some(2_920)),
            (bond, other_strip, None),
            (strip, other_bond, None),
            (bond, other_bond, None),
            (strip, other_strip, Some(0)),
            (bond, canada_strip, Some(5_110)),
            (strip, canada_bond, Some(5_840)),
            (strip, canada_strip, Some(6_570)),
            (bond, canada_bond, None),
        ] {
            assert_eq!(pair_rate(&one, &other), rate, "{one:?} {other:?}");
            assert_eq!(pair_rate(&other, &one), rate, "{other:?} {one:?}");
            let saving = rate.map(|rate| one.rate + other.rate - rate);
            assert_eq!(saving_rate(&one, &other), saving, "{one:?} {other:?}");
        }
    }

    #[test]
    fn every_two_provinces_and_kinds() {
        // Of provinces a bond has 5,840 and a strip 8,760; of Canada 2,920 and 4,380.
        for head in [participant(VALUED), client(VALUED)] {
            let of = |kind, issuer| valued(head, [kind, issuer, 2030_06_24, 0, NOT_RATED]);
            for (long_kind, short_kind) in (0..9).map(|number| (number / 3, number % 3)) {
                for long in PROVINCES {
                    for short in PROVINCES {
                        let wanted = match (long_kind, short_kind) {
                            (0, 0) => None,
                            (0, _) | (_, 0) if long != short => None,
                            (0, _) | (_, 0) => Some(2_920),
                            _ => Some(0),
                        };
                        let rate = pair_rate(&of(long_kind, long), &of(short_kind, short));
                        assert_eq!(rate, wanted, "{long_kind} {long}, {short_kind} {short}");
                    }
                    let wanted = match (long_kind, short_kind) {
                        (0, 0) => None,
                        (0, _) => Some(5_110),
                        (_, 0) => Some(5_840),
                        _ => Some(6_570),
                    };
                    let (province, canada) = (of(long_kind, long), of(short_kind, 0));
                    assert_eq!(pair_rate(&province, &canada), wanted, "{long}");
                    assert_eq!(pair_rate(&canada, &province), wanted, "{long}");
                }
            }
        }
    }

    #[test]
    fn a_pair_in_a_foreign_currency_follows_its_rule() {
        for currency in [1, 2] {
            for issuer in [0, 11, 12] {
                let bond = position_in(currency, 0, issuer, 2046_11_27);
                let strip = position_in(currency, 2, issuer, 2038_09_10);
                assert_eq!(pair_rate(&bond, &strip), Some(2_920));
                assert_eq!(saving_rate(&strip, &bond), Some(11_680));
                assert_eq!(pair_rate(&strip, &strip), None);
                assert_eq!(pair_rate(&bond, &bond), None);
                for (other_currency, other_issuer) in
                    [(0, issuer), (3 - currency, issuer), (currency, 7)]
                {
                    let other = position_in(other_currency, 2, other_issuer, 2038_09_10);
                    assert_eq!(pair_rate(&bond, &other), None);
                }
            }
        }
        let (bond, strip) = (position(0, 11, 2046_11_27), position(1, 11, 2046_11_27));
        assert_eq!((bond.rate, strip.rate), (5_840, 17_520));
        assert_eq!(pair_rate(&bond, &strip), None);
    }

    #[test]
    fn rates_of_a_corporation() {
        for (maturity, bond, strip) in [
            (2025_01_02, 4_380, 6_570),
            (2026_01_01, 4_380, 6_570),
            (2026_01_02, 8_760, 13_140),
            (2030_06_24, 10_220, 15_330),
            (2033_03_20, 14_600, 21_900),
            (2044_12_31, 14_600, 21_900),
            (2045_01_01, 14_600, 43_800),
        ] {
            for (currency, rating, issuer) in [(0, 0, 100), (1, 1, 355)] {
                let rate = |kind| corporate(currency, rating, kind, issuer, maturity).rate;
                assert_eq!([0, 1, 2].map(rate), [bond, strip, strip], "{maturity}");
            }
        }
    }

    #[test]
    fn a_pair_of_a_corporation_follows_its_rule() {
        let bond = corporate(0, 0, 0, 100, 2046_11_27);
        for (maturity, rate, saving) in [
            (2038_09_10, 21_900, 14_600),
            (2044_12_31, 21_900, 14_600),
            (2045_01_01, 29_200, 29_200),
        ] {
            for rating in [0, 1] {
                let strip = corporate(0, rating, 2, 100, maturity);
                assert_eq!(pair_rate(&bond, &strip), Some(rate));
                assert_eq!(saving_rate(&strip, &bond), Some(saving));
                assert_eq!(pair_rate(&strip, &strip), None);
            }
        }
        let strip = corporate(0, 0, 1, 100, 2046_11_27);
        assert_eq!(pair_rate(&bond, &bond), None);
        for other in [
            corporate(0, 1, 0, 100, 2046_11_27),
            corporate(1, 0, 0, 100, 2046_11_27),
            corporate(0, 0, 0, 101, 2046_11_27),
            corporate(0, 0, 0, 100, 2036_01_01),
            position(0, 0, 2046_11_27),
            position(0, 7, 2046_11_27),
        ] {
            assert_eq!(pair_rate(&strip, &other), None, "{other:?}");
        }
        let dollars = [0, 1].map(|kind| corporate(1, 0, kind, 100, 2046_11_27));
        assert_eq!(pair_rate(&dollars[0], &dollars[1]), None);
    }

    #[test]
    fn a_client_has_paragraph_2_alone() {
        // Currency, issuer and rating of a bond and a strip that a participant may pair.
        for (currency, issuer, rating) in [
            (0, 0, NOT_RATED),
            (0, 7, NOT_RATED),
            (0, 100, 0),
            (1, 0, NOT_RATED),
            (1, 11, NOT_RATED),
            (2, 12, NOT_RATED),
        ] {
            let of = |head, kind| valued(head, [kind, issuer, 2030_06_24, currency, rating]);
            let pair = |head| pair_rate(&of(head, 0), &of(head, 1));
            let theirs = pair(participant(VALUED));
            let domestic = of(client(VALUED), 0).market == Market::Domestic;
            assert!(theirs.is_some(), "{currency} {issuer}");
            assert_eq!(domestic, currency == 0 && issuer <= 10);
            assert_eq!(pair(client(VALUED)), theirs.filter(|_| domestic));
            for kind in [0, 1, 2] {
                let rate = |head| of(head, kind).rate;
                assert_eq!(rate(client(VALUED)), rate(participant(VALUED)));
            }
        }
    }
}
