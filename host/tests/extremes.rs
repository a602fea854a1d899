//! Numbers at the limits and near 2^64 in every column, and books and proposals of the largest sizes.

mod support;

use std::ops::RangeInclusive;
use std::thread;

use margin_calculator::samples::{ANY, SHAPES, Shape, best_sheet, book, holdings, split_lines};
use margin_calculator::{Row, Sheet, VALUED, calendar, participant};
use margin_host::{Figures, Line, check_columns};
use support::faults::{PAIRS, sound};
use support::lent::{Left, Lent, NAMES};
use support::{Run, column};

/// Numbers of all sizes: powers of two and their neighbours, and 2^64 less powers of two.
fn large() -> Vec<u64> {
    let mut numbers = Vec::new();
    for power in 5..64 {
        let two = 1u64 << power;
        numbers.extend([two - 1, two, two + 1, two.wrapping_neg()]);
    }
    for power in 0..5 {
        numbers.push((1u64 << power).wrapping_neg());
    }
    numbers
}

/// The range of each column of the sound sheet, and the number of the refusal outside it.
const RANGES: [(RangeInclusive<u64>, u64); NAMES.len()] = [
    (0..=1, 4),
    (0..=2, 5),
    (0..=12, 6),
    (1900_01_01..=2299_12_31, 24),
    (1..=100_000_000_000, 8),
    (0..=43_800, 10),
    (0..=2, 23),
    (2..=2, 25),
    (0..=13, 11),
    (0..=13, 11),
    (1..=1_000, 15),
];

#[test]
fn large_numbers_in_every_column() {
    let mut run = Run::fixed("large numbers in every column");
    let sound = sound();
    for (at, (range, refusal)) in RANGES.into_iter().enumerate() {
        let length = column(&mut sound.clone(), at).len();
        let last = *range.end();
        for entry in [0, length / 2, length - 1] {
            for number in large().into_iter().chain([1, last - 1, last, last + 1]) {
                let mut sheet = sound.clone();
                column(&mut sheet, at)[entry] = number;
                let what = format_args!("{number} in {} {entry}", NAMES[at]);
                // A government that has become a corporation lacks its rating.
                let corporate = NAMES[at] == "issuer" && (100..=355).contains(&number);
                let refusal = if corporate { 25 } else { refusal };
                if range.contains(&number) {
                    let left = run.compare(&Lent::of(&sheet), what);
                    assert_ne!(left.number, refusal, "{what}");
                } else {
                    run.refused(&Lent::of(&sheet), (refusal, entry as u64, 0), what);
                }
            }
        }
    }
}

#[test]
fn large_numbers_in_the_head() {
    let mut run = Run::fixed("large numbers in the head");
    for number in large().into_iter().chain([0, 1, 1899_12_31, 2300_01_01]) {
        let mut sheet = sound();
        sheet.head.date = number;
        let what = format_args!("valued on {number}");
        run.refused(&Lent::of(&sheet), (24, 0, 0), what);
    }
    for number in large().into_iter().chain([2, 3, VALUED]) {
        let mut sheet = sound();
        sheet.head.letter = number;
        let what = format_args!("letter {number}");
        run.refused(&Lent::of(&sheet), (26, 0, 0), what);
    }
}

#[test]
fn zero_where_the_least_is_one() {
    let mut run = Run::fixed("zero where the least is one");
    for (at, refusal) in [(3, 24), (4, 8), (7, 25), (10, 14)] {
        let length = column(&mut sound(), at).len();
        for entry in 0..length {
            let mut sheet = sound();
            column(&mut sheet, at)[entry] = 0;
            let what = format_args!("0 in {} {entry}", NAMES[at]);
            run.refused(&Lent::of(&sheet), (refusal, entry as u64, 0), what);
        }
    }
}

/// What the sound sheet is refused with if this line names this long: 11 outside the book, 12 on the wrong
/// side, 13 for a lone bond, 15 for another long, which its own line uses up before or after.
fn with_long(line: u64, number: u64) -> u64 {
    match number {
        14.. => 11,
        6..=11 | 13 => 12,
        12 => 13,
        _ if number == line => 0,
        _ => 15,
    }
}

/// The same for the short.
fn with_short(line: u64, number: u64) -> u64 {
    match number {
        14.. => 11,
        0..=5 | 12 => 12,
        13 => 13,
        _ if number == PAIRS + line => 0,
        _ => 15,
    }
}

#[test]
fn every_number_of_a_holding_in_the_lines() {
    let mut run = Run::fixed("every number in the lines");
    for line in 0..PAIRS {
        for number in 0..20 {
            let mut long = sound();
            long.long[line as usize] = number;
            let what = format_args!("long {number} in {line}");
            let left = run.compare(&Lent::of(&long), what);
            assert_eq!(left.number, with_long(line, number), "{what}");
            let mut short = sound();
            short.short[line as usize] = number;
            let what = format_args!("short {number} in {line}");
            let left = run.compare(&Lent::of(&short), what);
            assert_eq!(left.number, with_short(line, number), "{what}");
        }
    }
}

#[test]
fn numbers_past_the_book_that_end_like_one_of_it() {
    // A number cut to its low bits, or its byte offset, would be that of a holding; and the last of 2^64.
    let mut run = Run::fixed("numbers past the book");
    let mut past: Vec<u64> = (0..20).map(|less| u64::MAX - less).collect();
    for holding in 0..14 {
        past.extend([8, 16, 31, 32, 60, 61, 62, 63].map(|power| (1 << power) + holding));
    }
    for line in 0..PAIRS {
        for &number in &past {
            for (long, short) in [(true, false), (false, true), (true, true)] {
                let mut sheet = sound();
                if long {
                    sheet.long[line as usize] = number;
                }
                if short {
                    sheet.short[line as usize] = number;
                }
                let what = format_args!("{number} in {line}: long {long}, short {short}");
                run.refused(&Lent::of(&sheet), (11, line, 0), what);
            }
        }
    }
}

#[test]
fn amounts_that_would_wrap_around() {
    // Two amounts on the same legs whose sum is small modulo 2^64.
    let mut run = Run::fixed("amounts that would wrap around");
    for amount in large() {
        for first in [1, 500, 999, 1_000] {
            let mut sheet = sound();
            sheet.amount[0] = first;
            let again = amount.max(1_001 - first);
            sheet.add_line(Line {
                long: 0,
                short: PAIRS,
                amount: again,
            });
            run.refused(
                &Lent::of(&sheet),
                (15, PAIRS, 0),
                format_args!("{first} and {again}"),
            );
        }
    }
}

/// A book with lines, of the largest size, that splits into 512 lines.
fn largest(run: &mut Run, shape: &Shape) -> Sheet {
    let mut book = book(&mut run.random, shape, 254);
    for side in [0, 1] {
        let holding = Row {
            side,
            kind: 1,
            issuer: 0,
            maturity: calendar::days_after(book.head.date, 100),
            value: 50_000,
            currency: 0,
            rating: 2,
        };
        book.add_holding(holding, 0);
    }
    let mut sheet = best_sheet(&book);
    split_lines(&mut sheet, 512);
    assert_eq!(
        (sheet.side.len(), sheet.long.len()),
        (256, 512),
        "{}",
        shape.name
    );
    sheet
}

#[test]
fn largest_and_one_more() {
    let mut run = Run::new("largest and one more", 0x0501);
    for shape in SHAPES.iter().filter(|shape| shape.name != "one cent") {
        let sheet = largest(&mut run, shape);
        let left = run.compare(&Lent::of(&sheet), format_args!("{}", shape.name));
        assert_eq!(left.number, 0, "{}", shape.name);
        let mut more = sheet.clone();
        more.add_line(Line {
            long: 0,
            short: 0,
            amount: 0,
        });
        run.refused(&Lent::of(&more), (9, 0, 0), format_args!("{}", shape.name));
        let last = holdings(&mut run.random, shape, sheet.head.date, 1)[0];
        more.add_holding(last, 0);
        run.refused(&Lent::of(&more), (3, 0, 0), format_args!("{}", shape.name));
        let mut more = sheet;
        more.add_holding(last, 0);
        run.refused(&Lent::of(&more), (3, 0, 0), format_args!("{}", shape.name));
    }
}

#[test]
fn a_stack_of_40_kib_is_enough() {
    let mut run = Run::new("a small stack", 0x0503);
    let sheet = largest(&mut run, &ANY);
    let units = run.units(&sheet, format_args!("on the test's own stack"));
    let call = move || {
        let (mut remainder, mut ranking) = (vec![0; 256], vec![0; 256]);
        check_columns(sheet.head, &sheet.columns, &mut remainder, &mut ranking)
    };
    let small = thread::Builder::new().stack_size(40 * 1_024);
    let answer = small.spawn(call).expect("a thread").join();
    let cents = units.div_ceil(146_000);
    assert_eq!(answer.expect("an answer"), Ok(Figures { units, cents }));
}

#[test]
fn faults_of_the_largest() {
    let mut run = Run::new("faults of the largest", 0x0502);
    let sheet = largest(&mut run, &ANY);
    for (at, (_, refusal)) in RANGES.into_iter().enumerate() {
        let length = column(&mut sheet.clone(), at).len();
        for entry in [0, 1, length / 2, length - 2, length - 1] {
            let mut faulty = sheet.clone();
            column(&mut faulty, at)[entry] = u64::MAX;
            let what = format_args!("{} {entry}", NAMES[at]);
            run.refused(&Lent::of(&faulty), (refusal, entry as u64, 0), what);
        }
    }
}

#[test]
fn the_largest_totals() {
    // 256 holdings of the highest value and the highest rate: all long, all short, and half with half.
    let mut run = Run::fixed("the largest totals");
    let (kind, issuer, maturity) = (2, 10, 2125_01_01);
    let (value, currency, rating) = (100_000_000_000, 0, 2);
    let residual = |side| Row {
        side,
        kind,
        issuer,
        maturity,
        value,
        currency,
        rating,
    };
    let longs = Sheet::of_rows(participant(VALUED), &[residual(0); 256], 0);
    run.accepted(
        &Lent::of(&longs),
        256 * value * 21_900,
        format_args!("all long"),
    );
    let dear = Sheet::of_rows(participant(VALUED), &[residual(1); 256], 43_800);
    run.refused(
        &Lent::of(&dear),
        (17, 0, 0),
        format_args!("all short at the highest price"),
    );
    let mut sheet = Sheet::of_rows(participant(VALUED), &[residual(0); 128], 43_800);
    for long in 0..128 {
        sheet.add_holding(residual(1), 0);
        sheet.add_line(Line {
            long,
            short: 128 + long,
            amount: value,
        });
    }
    run.accepted(&Lent::of(&sheet), 0, format_args!("all paired"));
}

#[test]
fn one_uncovered_pair_among_all() {
    // One long is priced one lower and all shorts but one are priced one higher.
    let mut run = Run::fixed("one uncovered pair among all");
    let residual = |side| Row {
        side,
        kind: 2,
        issuer: 0,
        maturity: 2049_08_23,
        value: 1,
        currency: 0,
        rating: 2,
    };
    for long in [0, 1, 64, 126, 127] {
        for short in [128, 129, 200, 254, 255] {
            let mut sheet = Sheet::of_rows(participant(VALUED), &[residual(0); 128], 17_520);
            for number in 128..256 {
                sheet.add_holding(residual(1), if number == short { 17_520 } else { 17_521 });
            }
            sheet.price[long as usize] = 17_519;
            let what = format_args!("long {long}, short {short}");
            run.refused(&Lent::of(&sheet), (16, long, short), what);
            sheet.price[long as usize] = 17_520;
            run.refused(&Lent::of(&sheet), (17, 0, 0), what);
        }
    }
}

#[test]
fn ties_go_to_the_lower_number() {
    let mut run = Run::fixed("ties in the ranking");
    let (side, issuer, value, currency, rating) = (0, 0, 50, 0, 2);
    let holding = |kind, days| Row {
        side,
        kind,
        issuer,
        maturity: calendar::days_after(VALUED, days),
        value,
        currency,
        rating,
    };
    // 6 units a day against 4: the same margin twice, and a larger one between.
    let book = [
        holding(0, 30),
        holding(1, 20),
        holding(0, 31),
        holding(2, 20),
        holding(0, 30),
    ];
    let left = run.compare(
        &Lent::of(&Sheet::of_rows(participant(VALUED), &book, 0)),
        format_args!("five longs"),
    );
    assert_eq!(left.number, 0);
    assert_eq!(Left::entries(&left.ranking), [2, 0, 1, 3, 4]);
    let many = [holding(1, 7); 256];
    let left = run.compare(
        &Lent::of(&Sheet::of_rows(participant(VALUED), &many, 0)),
        format_args!("256 alike"),
    );
    assert!(Left::entries(&left.ranking).into_iter().eq(0..256));
}
