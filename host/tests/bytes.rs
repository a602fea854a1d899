//! Lengths in bytes: columns, lists to be written, and the answer slice.

mod support;

use margin_calculator::samples::{ANY, best_sheet, book};
use margin_calculator::{Row, Sheet, VALUED, participant};
use support::Run;
use support::faults::{Fault, HOLDINGS, NUMBERS, PAIRS, VALUATION, plant, sound};
use support::lent::{Lent, NAMES, OF_HOLDINGS};

/// Margin units of the sound sheet: two bonds of 500 cents at 5 per cent.
const SOUND_UNITS: u64 = 50 * 146_000;
const BYTES: usize = 8 * HOLDINGS as usize;

/// The columns of the holdings and those of the lines.
const GROUPS: [std::ops::Range<usize>; 2] = [0..OF_HOLDINGS, OF_HOLDINGS..NAMES.len()];

#[test]
fn one_column_of_another_length() {
    let mut run = Run::fixed("one column of another length");
    for (at, name) in NAMES.iter().enumerate() {
        let sound = Lent::of(&sound());
        let whole = sound.columns[at].len();
        for length in (0..whole + 18).filter(|length| *length != whole) {
            let mut lent = sound.clone();
            lent.columns[at].resize(length, 0);
            run.refused(&lent, (1, 0, 0), format_args!("{name} of {length} bytes"));
        }
    }
}

#[test]
fn all_columns_of_a_broken_length() {
    let mut run = Run::fixed("all columns of a broken length");
    for group in GROUPS {
        for more in 1..8 {
            let mut longer = Lent::of(&sound());
            let mut shorter = longer.clone();
            for at in group.clone() {
                let whole = longer.columns[at].len();
                longer.columns[at].resize(whole + more, 0);
                shorter.columns[at].truncate(whole - more);
            }
            longer.lists(2 * BYTES, 2 * BYTES);
            run.refused(
                &longer,
                (1, 0, 0),
                format_args!("{group:?}, {more} bytes more"),
            );
            run.refused(
                &shorter,
                (1, 0, 0),
                format_args!("{group:?}, {more} bytes less"),
            );
        }
    }
}

#[test]
fn columns_of_broken_lengths_above_the_limits() {
    let mut run = Run::fixed("broken lengths above the limits");
    for (group, limit) in GROUPS.into_iter().zip([256, 512]) {
        for bytes in [8 * limit + 1, 8 * limit + 7, 8 * limit + 9] {
            let mut lent = Lent::of(&sound());
            for at in group.clone() {
                lent.columns[at].resize(bytes, 0);
            }
            run.refused(&lent, (1, 0, 0), format_args!("{group:?} of {bytes} bytes"));
        }
    }
}

#[test]
fn each_group_of_columns_is_judged_by_itself() {
    let mut run = Run::fixed("each group by itself");
    let sound = Lent::of(&sound());
    let mut bookless = sound.clone();
    let mut lineless = sound.clone();
    bookless.columns[GROUPS[0].clone()]
        .iter_mut()
        .for_each(Vec::clear);
    lineless.columns[GROUPS[1].clone()]
        .iter_mut()
        .for_each(Vec::clear);
    run.refused(&bookless, (11, 0, 0), format_args!("lines without a book"));
    run.refused(&lineless, (17, 0, 0), format_args!("a book without lines"));
    lineless.columns[GROUPS[0].clone()]
        .iter_mut()
        .for_each(Vec::clear);
    run.accepted(&lineless, 0, format_args!("neither"));
}

#[test]
fn lists_of_every_length() {
    let mut run = Run::fixed("lists of every length");
    let lengths: Vec<usize> = (0..=9).chain(BYTES - 18..=BYTES + 34).collect();
    for &remainder in &lengths {
        for &ranking in &lengths {
            let mut lent = Lent::of(&sound());
            lent.lists(remainder, ranking);
            let what = format_args!("lists of {remainder} and {ranking} bytes");
            if remainder < BYTES || ranking < BYTES {
                run.refused(&lent, (2, 0, 0), what);
            } else {
                run.accepted(&lent, SOUND_UNITS, what);
            }
        }
    }
}

#[test]
fn lists_of_the_largest_book() {
    // 256 Canada bonds of one cent and one day, at 4 units each.
    let mut run = Run::fixed("lists of the largest book");
    let bond = Row {
        side: 0,
        kind: 0,
        issuer: 0,
        maturity: 2025_01_02,
        value: 1,
        currency: 0,
        rating: 2,
    };
    let mut lent = Lent::of(&Sheet::of_rows(participant(VALUED), &[bond; 256], 0));
    for short in [2_047, 2_040] {
        for (remainder, ranking) in [(short, 2_048), (2_048, short), (short, short)] {
            lent.lists(remainder, ranking);
            let what = format_args!("lists of {remainder} and {ranking} bytes");
            run.refused(&lent, (2, 0, 0), what);
        }
    }
    lent.lists(2_048, 2_048);
    run.accepted(&lent, 1_024, format_args!("lists of 2,048 bytes"));
}

#[test]
fn answers_of_every_length() {
    let mut run = Run::fixed("answers of every length");
    for length in 0..=24 {
        let mut lent = Lent::of(&sound());
        lent.answer(length);
        let what = format_args!("accepted, answer of {length} bytes");
        if length < 16 {
            run.refused(&lent, (2, 0, 0), what);
        } else {
            run.accepted(&lent, SOUND_UNITS, what);
        }
        for number in NUMBERS {
            let fault = Fault::at(number, 3, PAIRS + 2);
            let mut lent = plant(&[fault]);
            lent.answer(length);
            let short = length < 16 && ![1, 3, 9].contains(&number);
            let wanted = if short { (2, 0, 0) } else { fault.answer() };
            run.refused(
                &lent,
                wanted,
                format_args!("{fault:?}, answer of {length} bytes"),
            );
        }
    }
}

#[test]
fn short_lists_come_after_the_counts() {
    let mut run = Run::fixed("short lists and counts");
    for (number, first) in [
        (1, 1),
        (3, 3),
        (9, 9),
        (4, 2),
        (11, 2),
        (16, 2),
        (17, 2),
        (23, 2),
        (24, 2),
        (25, 2),
        (VALUATION, 2),
    ] {
        for (remainder, ranking, answer) in [
            (0, 0, 0),
            (0, 3_000, 16),
            (3_000, 0, 24),
            (3_000, 3_000, 15),
        ] {
            let mut lent = plant(&[Fault::at(number, 0, PAIRS)]);
            lent.lists(remainder, ranking);
            lent.answer(answer);
            let what =
                format_args!("{number} with lists of {remainder}, {ranking}, {answer} bytes");
            run.refused(&lent, (first, 0, 0), what);
        }
    }
}

#[test]
fn lists_of_the_empty_book() {
    let mut run = Run::fixed("lists of the empty book");
    for length in 0..=24 {
        let mut lent = Lent::of(&Sheet::empty(participant(VALUED)));
        lent.lists(length, 24 - length);
        run.accepted(
            &lent,
            0,
            format_args!("lists of {length} and {} bytes", 24 - length),
        );
    }
}

#[test]
fn longer_lists_of_random_books() {
    let mut run = Run::new("longer lists of random books", 0x0401);
    for _ in 0..400 {
        let size = run.random.place(40);
        let sheet = best_sheet(&book(&mut run.random, &ANY, size));
        let mut lent = Lent::of(&sheet);
        let more = [
            run.random.place(34),
            run.random.place(34),
            run.random.place(9),
        ];
        lent.lists(8 * size + more[0], 8 * size + more[1]);
        lent.answer(16 + more[2]);
        let left = run.compare(&lent, format_args!("{more:?} bytes more"));
        assert_eq!(left.number, 0, "{sheet:?}");
    }
}
