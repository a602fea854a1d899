//! Random changes to best proposals, and random bytes: only the calculator says what comes out.

mod support;

use margin_calculator::samples::{Random, SHAPES, best_sheet, book};
use margin_calculator::{Sheet, VALUED, participant};
use margin_host::Head;
use support::lent::{Lent, NAMES, OF_HOLDINGS};
use support::{Run, column};

/// Numbers at which something changes in the paper, and a few far away.
const PROBES: [u64; 42] = [
    0,
    1,
    2,
    3,
    4,
    10,
    11,
    12,
    13,
    99,
    100,
    101,
    255,
    256,
    257,
    354,
    355,
    356,
    1899_12_31,
    1900_01_01,
    1900_02_29,
    2000_02_29,
    2024_02_29,
    2025_01_01,
    2025_02_29,
    2026_01_01,
    2026_01_02,
    2028_01_01,
    2036_01_01,
    2036_01_02,
    2045_01_01,
    2125_01_01,
    2299_12_31,
    2300_01_01,
    43_800,
    43_801,
    100_000_000_000,
    100_000_000_001,
    1 << 32,
    1 << 63,
    u64::MAX - 1,
    u64::MAX,
];

fn change(random: &mut Random, sheet: &mut Sheet) {
    if random.below(10) == 0 {
        let Head { date, letter } = &mut sheet.head;
        let number = if random.below(2) == 0 { date } else { letter };
        *number = match random.below(4) {
            0 => random.pick(&PROBES),
            1 => number.wrapping_add(1),
            2 => number.wrapping_sub(1),
            _ => *number ^ 1,
        };
        return;
    }
    let column = column(sheet, random.place(NAMES.len()));
    if column.is_empty() {
        return;
    }
    let at = random.place(column.len());
    column[at] = match random.below(6) {
        0 => column[at].wrapping_add(1),
        1 => column[at].wrapping_sub(1),
        2 => random.pick(column),
        3 => random.below(20),
        4 => column[at] ^ 1 << random.below(64),
        _ => random.pick(&PROBES),
    };
}

#[test]
fn best_proposals_with_random_changes() {
    let mut run = Run::new("random changes", 0x0701);
    let mut seen = [0; 27];
    for round in 0..2_000 {
        let shape = run.random.pick(&SHAPES);
        let size = 1 + run.random.place(if round % 20 == 0 { 120 } else { 16 });
        let best = best_sheet(&book(&mut run.random, &shape, size));
        for changes in [1, 1, 1, 2, 2, 3, 5] {
            let mut sheet = best.clone();
            for _ in 0..changes {
                change(&mut run.random, &mut sheet);
            }
            let what = format_args!("{}, {changes} changes", shape.name);
            let left = run.compare(&Lent::of(&sheet), what);
            seen[left.number as usize] += 1;
        }
    }
    for number in (4..=17)
        .filter(|number| *number != 9)
        .chain([0, 23, 24, 25, 26])
    {
        assert!(seen[number] > 0, "no book with {number} among {seen:?}");
    }
}

#[test]
fn random_lengths_and_numbers() {
    let mut run = Run::new("random lengths and numbers", 0x0702);
    for _ in 0..3_000 {
        let letter = run.random.below(3);
        let mut lent = Lent::of(&Sheet::empty(Head {
            date: VALUED,
            letter,
        }));
        let lengths = [run.random.place(7), run.random.place(5)].map(|count| 8 * count);
        let uneven = run.random.below(4) == 0;
        for (at, column) in lent.columns.iter_mut().enumerate() {
            let more = if uneven { run.random.place(10) } else { 0 };
            let length = lengths[usize::from(at >= OF_HOLDINGS)] + more;
            let most = [2, 3, 13, 2126_01_01, 1_000, 20_000, 3, 3, 6, 6, 1_000][at];
            while column.len() < length {
                let number = match run.random.below(8) {
                    1.. if NAMES[at] == "maturity" => run.random.pick(&[2026_01_01, 2030_06_24]),
                    1 | 2 if NAMES[at] == "issuer" => run.random.pick(&[99, 100, 101, 355, 356]),
                    1..7 if NAMES[at] == "rating" => 2,
                    _ => run.random.below(most),
                };
                column.extend(number.to_le_bytes());
            }
            column.truncate(length);
        }
        lent.lists(run.random.place(64), run.random.place(64));
        lent.answer(run.random.place(25).max(run.random.place(25)));
        run.compare(&lent, format_args!("random"));
    }
}

#[test]
fn random_bytes() {
    let mut run = Run::new("random bytes", 0x0703);
    for _ in 0..1_000 {
        let mut lent = Lent::of(&Sheet::empty(participant(VALUED)));
        let lengths = [8 * run.random.place(4), 8 * run.random.place(4)];
        for (at, column) in lent.columns.iter_mut().enumerate() {
            let length = lengths[usize::from(at >= OF_HOLDINGS)];
            column.extend((0..length).map(|_| run.random.bits() as u8));
        }
        lent.lists(24, 24);
        run.compare(&lent, format_args!("random"));
    }
}
