//! Small books: every pairing in whole cents is tried, and none needs less margin than the accepted one.

mod support;

use margin_calculator::samples::{
    DOMESTIC, PERIODS, PROVINCES, Random, SHAPES, Shape, best_sheet, book, holdings,
};
use margin_calculator::{FIRST_CORPORATION, Sheet, VALUED, pair_rate};
use support::Run;
use support::sheets::{HEADS, Leg, paper_pair, paper_rate};

/// Two holdings that may be paired, and their rate.
struct Pair {
    long: usize,
    short: usize,
    rate: u64,
}

/// The pairs of a book, by the rate that a long and a short have as one.
fn pairs(book: &Sheet, rate_of: impl Fn(usize, usize) -> Option<u64>) -> Vec<Pair> {
    let of_side = |side| (0..book.side.len()).filter(move |number| book.side[*number] == side);
    let mut pairs = Vec::new();
    for long in of_side(0) {
        for short in of_side(1) {
            if let Some(rate) = rate_of(long, short) {
                pairs.push(Pair { long, short, rate });
            }
        }
    }
    pairs
}

/// The least sum over all pairings: every amount of the first pair, with every pairing of the others.
fn least(rates: &[u64], left: &mut [u64], pairs: &[Pair]) -> u64 {
    let Some((pair, others)) = pairs.split_first() else {
        return rates
            .iter()
            .zip(left)
            .map(|(rate, left)| rate * *left)
            .sum();
    };
    let most = left[pair.long].min(left[pair.short]);
    let mut best = u64::MAX;
    for amount in 0..=most {
        left[pair.long] -= amount;
        left[pair.short] -= amount;
        best = best.min(pair.rate * amount + least(rates, left, others));
        left[pair.long] += amount;
        left[pair.short] += amount;
    }
    best
}

fn small_book(random: &mut Random, shape: &Shape, size: usize, values: u64) -> Sheet {
    let mut book = book(random, shape, size);
    for value in &mut book.value {
        *value = 1 + random.below(values);
    }
    book
}

/// Whether a sheet has a line of paragraph 2, of paragraph 3 and of paragraph 4.
fn paragraphs(sheet: &Sheet) -> [bool; 3] {
    let mut found = [false; 3];
    for long in &sheet.long {
        let long = sheet.row(*long as usize);
        let paragraph = match (long.currency, long.issuer) {
            (1.., _) => 4,
            (_, FIRST_CORPORATION..) => 3,
            _ => 2,
        };
        found[paragraph - 2] = true;
    }
    found
}

/// Draws a book of this size and with values up to this, and demands that the best proposal on it is accepted
/// with the least sum.
fn least_is_found(run: &mut Run, shape: &Shape, size: usize, values: u64) -> Sheet {
    let book = small_book(&mut run.random, shape, size, values);
    let rates: Vec<u64> = (0..size).map(|number| book.position(number).rate).collect();
    let position = |number| book.position(number);
    let pairs = pairs(&book, |long, short| {
        pair_rate(&position(long), &position(short))
    });
    let found = least(&rates, &mut book.value.clone(), &pairs);
    let best = best_sheet(&book);
    let units = run.units(&best, format_args!("{}", shape.name));
    assert_eq!(units, found, "{}\n{book:?}", shape.name);
    best
}

#[test]
fn no_pairing_needs_less() {
    let mut run = Run::new("no pairing needs less", 0x0201);
    for shape in &SHAPES {
        for (size, values) in [(1, 4), (2, 4), (3, 4), (4, 4), (5, 3), (6, 2)] {
            for _ in 0..40 {
                least_is_found(&mut run, shape, size, values);
            }
        }
    }
}

#[test]
fn no_pairing_by_any_paragraph_needs_less() {
    let mut run = Run::new("any paragraph", 0x0202);
    let mut seen = [0; 3];
    let mut several = 0;
    let corporate = |shape: &Shape| {
        shape
            .issuers
            .iter()
            .any(|issuer| *issuer >= FIRST_CORPORATION)
    };
    let many = |shape: &&Shape| shape.currencies.len() > 1 || corporate(shape);
    for shape in SHAPES.iter().filter(many) {
        for (size, values) in [(5, 3), (6, 2), (8, 2), (10, 1)] {
            for _ in 0..400 {
                let best = least_is_found(&mut run, shape, size, values);
                let found = paragraphs(&best).map(usize::from);
                several += usize::from(found.iter().sum::<usize>() > 1);
                for (count, found) in seen.iter_mut().zip(found) {
                    *count += found;
                }
            }
        }
    }
    for (paragraph, count) in (2..).zip(seen) {
        assert!(
            count >= 1_000,
            "{count} books are paired by paragraph {paragraph}"
        );
    }
    assert!(
        several >= 300,
        "{several} books are paired by more than one paragraph"
    );
}

/// The least sum over all pairings of a book that is valued on document 01's date, by the rates and pairs that are
/// typed from the papers.
fn least_by_the_papers(book: &Sheet) -> u64 {
    let legs: Vec<Leg> = (0..book.side.len())
        .map(|number| book.row(number))
        .map(|row| (row.kind, row.issuer, row.maturity, row.currency))
        .collect();
    let rates: Vec<u64> = legs
        .iter()
        .map(|(kind, issuer, maturity, _)| paper_rate(*kind, *issuer, *maturity))
        .collect();
    let pairs = pairs(book, |long, short| {
        paper_pair(legs[long], legs[short]).map(|(rate, _)| rate)
    });
    least(&rates, &mut book.value.clone(), &pairs)
}

#[test]
fn no_pairing_within_and_across_provinces_needs_less() {
    let mut run = Run::new("provinces", 0x0203);
    let two = Shape {
        name: "two provinces",
        issuers: &[7, 9],
        terms: &[PERIODS[2]],
        ..PROVINCES
    };
    let with_canada = Shape {
        name: "two provinces and Canada",
        issuers: &[0, 1, 10],
        terms: &[PERIODS[0]],
        ..PROVINCES
    };
    let mut dearer = 0;
    for shape in [PROVINCES, DOMESTIC, two, with_canada] {
        for (size, values) in [(2, 4), (3, 4), (4, 4), (5, 3), (6, 2), (8, 2), (10, 1)] {
            for round in 0..200 {
                let mut rows = holdings(&mut run.random, &shape, VALUED, size);
                for row in &mut rows {
                    row.value = 1 + run.random.below(values);
                }
                let book = Sheet::of_rows(HEADS[round % 2], &rows, 0);
                let units = run.units(&best_sheet(&book), format_args!("{}", shape.name));
                assert_eq!(units, least_by_the_papers(&book), "{book:?}");
                // As one province, which has more pairs.
                let mut one = book.clone();
                for issuer in one.issuer.iter_mut().filter(|issuer| **issuer != 0) {
                    *issuer = 1;
                }
                dearer += usize::from(least_by_the_papers(&one) < units);
            }
        }
    }
    assert!(
        dearer >= 500,
        "{dearer} books need more than as one province"
    );
}
