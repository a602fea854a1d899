//! The wrapper on columns of numbers, and the refusals in words.

mod support;

use margin_calculator::Sheet;
use margin_calculator::samples::{Random, SHAPES, best_sheet, book};
use margin_host::{Figures, Refusal, check_columns};
use support::Run;
use support::faults::{HOLDINGS, LONE_LONG, PAIRS, sound};
use support::lent::{Left, Lent};

/// What the wrapper says to a sheet, with lists of the right length.
fn answer(sheet: &Sheet) -> Result<Figures, Refusal> {
    let count = sheet.side.len();
    check_columns(
        sheet.head,
        &sheet.columns,
        &mut vec![0; count],
        &mut vec![0; count],
    )
}

/// The sound sheet with one change.
fn with(change: impl FnOnce(&mut Sheet)) -> Result<Figures, Refusal> {
    let mut sheet = sound();
    change(&mut sheet);
    answer(&sheet)
}

#[test]
fn accepted_with_lists() {
    let sheet = sound();
    let (mut remainder, mut ranking) = ([7; 16], [8; 16]);
    let figures = check_columns(sheet.head, &sheet.columns, &mut remainder, &mut ranking);
    assert_eq!(
        figures,
        Ok(Figures {
            units: 7_300_000,
            cents: 50
        })
    );
    assert_eq!(
        remainder,
        [0, 0, 0, 0, 0, 0, 0, 0, 0, 0, 0, 0, 500, 500, 7, 7]
    );
    assert_eq!(
        ranking,
        [12, 13, 0, 1, 2, 3, 4, 5, 6, 7, 8, 9, 10, 11, 8, 8]
    );
}

#[test]
fn a_refusal_keeps_the_lists() {
    let mut sheet = sound();
    sheet.price[LONE_LONG as usize] = 1;
    let (mut remainder, mut ranking) = ([7; 15], [8; 15]);
    let refusal = check_columns(sheet.head, &sheet.columns, &mut remainder, &mut ranking);
    assert_eq!(refusal, Err(Refusal::TotalsDiffer));
    assert_eq!((remainder, ranking), ([7; 15], [8; 15]));
}

#[test]
fn every_refusal_of_a_length() {
    let differ = Err(Refusal::ColumnsDiffer);
    assert_eq!(with(|sheet| sheet.kind.push(0)), differ);
    assert_eq!(with(|sheet| sheet.issuer.push(0)), differ);
    assert_eq!(with(|sheet| sheet.maturity.truncate(3)), differ);
    assert_eq!(with(|sheet| sheet.value.clear()), differ);
    assert_eq!(with(|sheet| sheet.price.truncate(13)), differ);
    assert_eq!(with(|sheet| sheet.currency.push(0)), differ);
    assert_eq!(with(|sheet| sheet.rating.push(2)), differ);
    assert_eq!(with(|sheet| sheet.long.push(0)), differ);
    assert_eq!(with(|sheet| sheet.short.clear()), differ);
    assert_eq!(with(|sheet| sheet.amount.truncate(5)), differ);
    let sheet = sound();
    for (remainder, ranking) in [(13, 14), (14, 13), (0, 14), (14, 0)] {
        let (mut remainder, mut ranking) = (vec![1; remainder], vec![2; ranking]);
        let short = check_columns(sheet.head, &sheet.columns, &mut remainder, &mut ranking);
        assert_eq!(short, Err(Refusal::ListTooShort));
    }
    let many = book(&mut Random::new(0x0600), &SHAPES[0], 257);
    assert_eq!(answer(&many), Err(Refusal::TooManyHoldings));
    let lines = with(|sheet| {
        let columns = &mut sheet.columns;
        for column in [&mut columns.long, &mut columns.short, &mut columns.amount] {
            column.resize(513, 0);
        }
    });
    assert_eq!(lines, Err(Refusal::TooManyLines));
}

#[test]
fn every_refusal_of_a_holding() {
    for number in [0, HOLDINGS / 2, HOLDINGS - 1] {
        let (at, holding) = (number as usize, number);
        let refusal = Err(Refusal::SideUnknown { holding });
        assert_eq!(with(|sheet| sheet.side[at] = 2), refusal);
        let refusal = Err(Refusal::KindUnknown { holding });
        assert_eq!(with(|sheet| sheet.kind[at] = 3), refusal);
        let refusal = Err(Refusal::IssuerUnknown { holding });
        assert_eq!(with(|sheet| sheet.issuer[at] = 13), refusal);
        let refusal = Err(Refusal::DateInvalid { holding });
        assert_eq!(with(|sheet| sheet.maturity[at] = 2030_06_31), refusal);
        let refusal = Err(Refusal::MaturityOutOfRange { holding });
        assert_eq!(with(|sheet| sheet.maturity[at] = 2125_01_02), refusal);
        let refusal = Err(Refusal::ValueOutOfRange { holding });
        assert_eq!(with(|sheet| sheet.value[at] = 0), refusal);
        let refusal = Err(Refusal::CurrencyUnknown { holding });
        assert_eq!(with(|sheet| sheet.currency[at] = 3), refusal);
        let refusal = Err(Refusal::RatingInvalid { holding });
        assert_eq!(with(|sheet| sheet.rating[at] = 0), refusal);
        assert_eq!(with(|sheet| sheet.rating[at] = 3), refusal);
        assert_eq!(with(|sheet| sheet.issuer[at] = 100), refusal);
        let refusal = Err(Refusal::PriceTooHigh { holding });
        assert_eq!(with(|sheet| sheet.price[at] = 43_801), refusal);
    }
}

#[test]
fn the_refusal_of_the_valuation_date() {
    let refusal = Err(Refusal::DateInvalid { holding: 0 });
    assert_eq!(with(|sheet| sheet.head.date = 2025_02_29), refusal);
}

#[test]
fn the_refusal_of_the_account() {
    let refusal = Err(Refusal::AccountUnknown);
    assert_eq!(with(|sheet| sheet.head.letter = 2), refusal);
    assert_eq!(with(|sheet| sheet.head.letter = u64::MAX), refusal);
}

#[test]
fn every_refusal_of_a_line() {
    for number in [0, PAIRS / 2, PAIRS - 1] {
        let (at, line) = (number as usize, number);
        let refusal = Err(Refusal::NotInBook { line });
        assert_eq!(with(|sheet| sheet.short[at] = HOLDINGS), refusal);
        let refusal = Err(Refusal::WrongSide { line });
        assert_eq!(with(|sheet| sheet.long[at] = PAIRS), refusal);
        let refusal = Err(Refusal::PairNotAllowed { line });
        assert_eq!(with(|sheet| sheet.long[at] = LONE_LONG), refusal);
        let refusal = Err(Refusal::AmountZero { line });
        assert_eq!(with(|sheet| sheet.amount[at] = 0), refusal);
        let refusal = Err(Refusal::AmountAboveRemainder { line });
        assert_eq!(with(|sheet| sheet.amount[at] = u64::MAX), refusal);
    }
}

#[test]
fn the_refusals_of_the_prices() {
    let refusal = Err(Refusal::PairNotCovered {
        long: 3,
        short: PAIRS,
    });
    assert_eq!(with(|sheet| sheet.price[3] -= 1), refusal);
    assert_eq!(
        with(|sheet| sheet.price[13] += 1),
        Err(Refusal::TotalsDiffer)
    );
}

#[test]
fn the_wrapper_is_the_raw_call() {
    let mut run = Run::new("the wrapper is the raw call", 0x0601);
    for shape in &SHAPES {
        for size in [0, 1, 2, 7, 40] {
            let mut sheet = best_sheet(&book(&mut run.random, shape, size));
            if size > 0 && run.random.below(2) == 0 {
                sheet.price[run.random.place(size)] ^= 1;
            }
            let left = run.compare(&Lent::of(&sheet), format_args!("{}", shape.name));
            let (mut remainder, mut ranking) = (vec![0; size], vec![0; size]);
            let answer = check_columns(sheet.head, &sheet.columns, &mut remainder, &mut ranking);
            match answer {
                Ok(figures) => {
                    assert_eq!((0, figures.units, figures.cents), parts(&left), "{sheet:?}");
                    assert_eq!(remainder, Left::entries(&left.remainder));
                    assert_eq!(ranking, Left::entries(&left.ranking));
                }
                Err(refusal) => {
                    let found = (refusal.number(), refusal.place(), refusal.second());
                    assert_eq!(found, parts(&left), "{sheet:?}");
                }
            }
        }
    }
}

fn parts(left: &Left) -> (u64, u64, u64) {
    let (first, second) = left.figures();
    (left.number, first, second)
}

#[test]
fn parts_and_back() {
    for number in 0..=40 {
        for place in [0, 1, 255, u64::MAX] {
            for second in [0, 1, 255, u64::MAX] {
                let has_place = matches!(number, 4..=8 | 10..=16 | 19..=25);
                let known = (1..=26).contains(&number)
                    && (has_place || place == 0)
                    && (number == 16 || second == 0);
                let refusal = Refusal::from_parts(number, place, second);
                assert_eq!(refusal.is_some(), known, "{number} {place} {second}");
                if let Some(refusal) = refusal {
                    let parts = (refusal.number(), refusal.place(), refusal.second());
                    assert_eq!(parts, (number, place, second));
                }
                let of_reader = Refusal::from_reader_parts(number, place, second);
                let given = matches!(number, 2 | 3 | 9 | 18..=22 | 25);
                assert_eq!(
                    of_reader.is_some(),
                    known && given,
                    "{number} {place} {second}"
                );
                if let Some(refusal) = of_reader {
                    let parts = (refusal.number(), refusal.place(), refusal.second());
                    assert_eq!(parts, (number, place, second));
                }
            }
        }
    }
    assert_eq!(Refusal::from_parts(u64::MAX, 0, 0), None);
}

/// Number, place and second place, and what it says.
const SENTENCES: [((u64, u64, u64), &str); 28] = [
    (
        (1, 0, 0),
        "the columns of the holdings, price, currency and rating among them, must all have the \
         same length in whole numbers, and so must the columns of the lines",
    ),
    (
        (2, 0, 0),
        "a list lent for the results is too short: remainder, ranking and the columns of \
         the holdings need one entry for each holding, the columns of the lines one for \
         each line, the head two entries, the LEIs 20 bytes for each corporation, the list of a \
         day book 56 bytes for each holding, its totals five entries, the answer 16 bytes",
    ),
    (
        (3, 0, 0),
        "the book has more than 256 holdings, or would have with the trade",
    ),
    (
        (4, 0, 0),
        "holding 0, counting from 0, or the trade has an unknown side: it must be 0 for long or 1 \
         for short",
    ),
    (
        (4, 1, 0),
        "holding 1, counting from 0, has an unknown side: it must be 0 for long or 1 for \
         short",
    ),
    (
        (5, 12, 0),
        "holding 12, counting from 0, has an unknown kind: it must be 0 for a bond, 1 for \
         a stripped coupon or 2 for a residual",
    ),
    (
        (6, 1, 0),
        "holding 1, counting from 0, has an unknown issuer: it must be 0 for Canada, 1 to \
         10 for a province, 11 for the United States, 12 for the United Kingdom or 100 to \
         355 for a corporation",
    ),
    (
        (7, 255, 0),
        "holding 255, counting from 0, has a maturity on or before the valuation date or the date \
         to move to, or past the former's 100th anniversary",
    ),
    (
        (8, 3, 0),
        "holding 3, counting from 0, has a market value, or a sum with the trade, outside 1 to \
         100,000,000,000 cents",
    ),
    ((9, 0, 0), "the proposal has more than 512 lines"),
    (
        (10, 4, 0),
        "holding 4, counting from 0, has a price outside 0 to 43,800",
    ),
    (
        (11, 0, 0),
        "line 0, counting from 0, names a holding that is not in the book",
    ),
    (
        (12, 511, 0),
        "line 511, counting from 0, must name a long holding first and a short holding \
         second",
    ),
    (
        (13, 5, 0),
        "line 5, counting from 0, pairs two holdings that may not be paired: both must lie \
         in one period and be in one currency; in CAD they must be of Canada or a province \
         and not both bonds, and a bond and a strip of provinces must be of the same province; \
         for an approved participant, but not for a client, they may also be a bond and a strip, \
         in CAD of the same corporation, the bond rated single A or higher, in USD or GBP of the \
         same government, Canada, US or GB",
    ),
    (
        (14, 6, 0),
        "line 6, counting from 0, has amount 0, and the least is 1 cent",
    ),
    (
        (15, 7, 0),
        "line 7, counting from 0, has an amount above what the lines before it leave of \
         one of its holdings",
    ),
    (
        (16, 0, 2),
        "the prices of long holding 0 and short holding 2, counting from 0, add up to \
         less than the saving rate of their pair",
    ),
    (
        (17, 0, 0),
        "the priced total of the holdings differs from the saving of the lines, and the \
         two must be equal",
    ),
    ((18, 0, 0), "the file is longer than 65,536 bytes"),
    (
        (19, 8, 0),
        "record 8, counting from 0, has quotes, line ends or characters that the grammar \
         of RFC 4180 does not allow",
    ),
    (
        (20, 0, 0),
        "record 0, counting from 0, does not have nine fields",
    ),
    (
        (21, 767, 0),
        "record 767, counting from 0, begins with none of D, H and P, has a field that is \
         no value of its sort, or fills one that must be empty",
    ),
    (
        (22, 2, 0),
        "record 2, counting from 0, is missing or out of its order: one D with the \
         valuation date comes first, then all holdings, then all pair lines",
    ),
    (
        (23, 9, 0),
        "holding 9, counting from 0, has an unknown currency: it must be 0 for CAD, 1 for \
         USD or 2 for GBP",
    ),
    (
        (24, 0, 0),
        "the valuation date, the date to move to, or the maturity of the trade or of holding 0, \
         counting from 0, is no day of the years 1900 to 2299",
    ),
    (
        (24, 9, 0),
        "the maturity of holding 9, counting from 0, is no day of the years 1900 to 2299",
    ),
    (
        (25, 9, 0),
        "holding 9, counting from 0, has a rating that does not fit its issuer: it must be 0 \
         for single A or higher or 1 for lower on a corporation, and 2 for none on a \
         government",
    ),
    (
        (26, 0, 0),
        "the account is unknown: it must be 0 for an approved participant or 1 for a client",
    ),
];

#[test]
fn every_refusal_in_words() {
    for ((number, place, second), words) in SENTENCES {
        let refusal = Refusal::from_parts(number, place, second).expect("a refusal");
        let error: &dyn std::error::Error = &refusal;
        assert_eq!(error.to_string(), words);
    }
    let of_reader = Refusal::from_reader_parts(25, 9, 0).expect("a refusal");
    assert_eq!(
        of_reader.to_string(),
        "record 9, counting from 0, has an LEI whose check digits do not fit it, no rating on a \
         corporation, or a rating on a government"
    );
}

#[test]
fn the_meanings_of_27_in_words() {
    for (refusal, words) in [
        (
            Refusal::StoredTotalsDiffer,
            "the totals stored with the book are not those of its holdings",
        ),
        (
            Refusal::TakenOutOfRange,
            "the trade takes zero, or more than the first equal holding holds",
        ),
        (
            Refusal::DateNotLater,
            "the date to move to is not later than the valuation date",
        ),
    ] {
        let parts = (refusal.number(), refusal.place(), refusal.second());
        assert_eq!(parts, (27, 0, 0));
        assert_eq!(refusal.to_string(), words);
    }
}

#[test]
fn the_words_fit_after_a_colon() {
    for number in 1..=26 {
        let has_place = matches!(number, 4..=8 | 10..=16 | 19..=25);
        let (place, second) = (
            if has_place { 4_711 } else { 0 },
            if number == 16 { 815 } else { 0 },
        );
        let refusal = Refusal::from_parts(number, place, second).expect("a refusal");
        let words = refusal.to_string();
        assert!(
            words.starts_with(|first: char| first.is_ascii_lowercase()),
            "{words}"
        );
        assert!(
            words.ends_with(|last: char| last.is_ascii_alphanumeric()),
            "{words}"
        );
        assert!(!words.contains(". ") && !words.contains('\n'), "{words}");
        assert_eq!(words.contains("4711"), has_place, "{words}");
        assert_eq!(words.contains("815"), number == 16, "{words}");
    }
}
