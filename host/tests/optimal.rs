//! Best proposals are accepted, and proposals next to them are judged as the paper says.

mod support;

use margin_calculator::samples::{Random, SHAPES, Shape, best_sheet, book, split_lines};
use margin_calculator::{Sheet, optimise, pair_rate};
use margin_host::{Line, Refusal};
use support::Run;
use support::lent::{Left, Lent};

/// The figures from their definition: remainders, and units of lines and remainders.
fn figures(sheet: &Sheet) -> (Vec<u64>, u64) {
    let mut left = sheet.value.clone();
    let mut units = 0;
    for line in 0..sheet.long.len() {
        let (long, short) = (sheet.long[line] as usize, sheet.short[line] as usize);
        let rate = pair_rate(&sheet.position(long), &sheet.position(short));
        units += rate.expect("a best line is allowed") * sheet.amount[line];
        left[long] -= sheet.amount[line];
        left[short] -= sheet.amount[line];
    }
    let alone = (0..left.len()).map(|number| sheet.position(number).rate * left[number]);
    let units = units + alone.sum::<u64>();
    (left, units)
}

/// Compares a best sheet, and demands the figures, the remainders and a ranking that is in order.
fn best_is_accepted(run: &mut Run, sheet: &Sheet, shape: &Shape) {
    let size = sheet.side.len();
    let what = format_args!("{}, {size} holdings", shape.name);
    let left = run.compare(&Lent::of(sheet), what);
    let (remainder, units) = figures(sheet);
    assert_eq!(left.number, 0, "{what}\n{sheet:?}");
    assert_eq!(
        left.figures(),
        (units, units.div_ceil(146_000)),
        "{what}\n{sheet:?}"
    );
    assert_eq!(
        Left::entries(&left.remainder),
        remainder,
        "{what}\n{sheet:?}"
    );
    let ranking = Left::entries(&left.ranking);
    let margin = |number: u64| sheet.position(number as usize).rate * remainder[number as usize];
    for two in ranking.windows(2) {
        let (earlier, later) = (margin(two[0]), margin(two[1]));
        assert!(
            earlier > later || earlier == later && two[0] < two[1],
            "{what}\n{sheet:?}"
        );
    }
    let mut all = ranking;
    all.sort_unstable();
    assert!(all.into_iter().eq(0..size as u64), "{what}\n{sheet:?}");
    assert!(
        sheet.price.iter().all(|price| *price <= 43_800),
        "{what}\n{sheet:?}"
    );
    assert!(
        sheet.long.len() <= size.saturating_sub(1),
        "{what}\n{sheet:?}"
    );
}

#[test]
fn best_proposals_are_accepted() {
    let mut run = Run::new("best proposals", 0x0101);
    for shape in &SHAPES {
        for size in [0, 1, 2, 2, 3, 3, 4, 5, 6, 7, 8, 10, 13, 16, 21, 34, 55] {
            for _ in 0..20 {
                let sheet = best_sheet(&book(&mut run.random, shape, size));
                best_is_accepted(&mut run, &sheet, shape);
            }
        }
    }
}

#[test]
fn large_best_proposals_are_accepted() {
    let mut run = Run::new("large best proposals", 0x0102);
    for shape in &SHAPES {
        for size in [64, 128, 200, 255, 256, 256] {
            let sheet = best_sheet(&book(&mut run.random, shape, size));
            best_is_accepted(&mut run, &sheet, shape);
        }
    }
}

#[test]
fn split_lines_are_accepted() {
    let mut run = Run::new("split lines", 0x0103);
    for shape in &SHAPES {
        for size in [2, 4, 9, 30] {
            for more in [1, 2, 20] {
                let mut sheet = best_sheet(&book(&mut run.random, shape, size));
                let units = run.units(&sheet, format_args!("{}", shape.name));
                let count = sheet.long.len() + more;
                split_lines(&mut sheet, count);
                run.accepted(&Lent::of(&sheet), units, format_args!("{}", shape.name));
            }
        }
    }
}

/// Best sheets of several sizes, each handed on once.
fn each_best(run: &mut Run, each: fn(&mut Run, &Sheet)) {
    for shape in &SHAPES {
        for size in [2, 3, 5, 8, 12, 20] {
            for _ in 0..4 {
                let sheet = best_sheet(&book(&mut run.random, shape, size));
                each(run, &sheet);
            }
        }
    }
}

#[test]
fn one_price_one_off() {
    let mut run = Run::new("one price one off", 0x0104);
    each_best(&mut run, |run, best| {
        for holding in 0..best.side.len() {
            let mut sheet = best.clone();
            sheet.price[holding] += 1;
            let wanted = match best.price[holding] {
                43_800 => (10, holding as u64, 0),
                _ => (17, 0, 0),
            };
            run.refused(
                &Lent::of(&sheet),
                wanted,
                format_args!("price of {holding} up"),
            );
            if best.price[holding] > 0 {
                sheet.price[holding] -= 2;
                let left = run.compare(&Lent::of(&sheet), format_args!("price of {holding} down"));
                // A price above 0 stands on a paired holding, whose pair it just covers.
                assert_eq!(left.number, 16, "price of {holding} down\n{sheet:?}");
            }
        }
    });
}

#[test]
fn one_amount_one_off() {
    let mut run = Run::new("one amount one off", 0x0105);
    each_best(&mut run, |run, best| {
        for line in 0..best.long.len() {
            let mut sheet = best.clone();
            sheet.amount[line] += 1;
            let left = run.compare(&Lent::of(&sheet), format_args!("amount of {line} up"));
            // One leg is used up, so this line or a later one takes too much.
            assert_eq!(left.number, 15, "amount of {line} up\n{sheet:?}");
            assert!(
                left.figures().0 >= line as u64,
                "amount of {line} up\n{sheet:?}"
            );
            sheet.amount[line] -= 2;
            let wanted = if best.amount[line] == 1 {
                (14, line as u64, 0)
            } else {
                (17, 0, 0)
            };
            run.refused(
                &Lent::of(&sheet),
                wanted,
                format_args!("amount of {line} down"),
            );
        }
    });
}

#[test]
fn a_line_dropped_or_doubled() {
    let mut run = Run::new("a line dropped or doubled", 0x0106);
    each_best(&mut run, |run, best| {
        let last = best.long.len() as u64;
        for line in 0..best.long.len() {
            let mut sheet = best.clone();
            let (long, short) = (sheet.long.remove(line), sheet.short.remove(line));
            let amount = sheet.amount.remove(line);
            run.refused(
                &Lent::of(&sheet),
                (17, 0, 0),
                format_args!("line {line} dropped"),
            );
            let mut sheet = best.clone();
            sheet.add_line(Line {
                long,
                short,
                amount,
            });
            run.refused(
                &Lent::of(&sheet),
                (15, last, 0),
                format_args!("line {line} doubled"),
            );
        }
    });
}

#[test]
fn lines_in_another_order() {
    let mut run = Run::new("lines in another order", 0x0107);
    each_best(&mut run, |run, best| {
        let units = run.units(best, format_args!("as found"));
        let mut sheet = best.clone();
        let columns = &mut sheet.columns;
        for column in [&mut columns.long, &mut columns.short, &mut columns.amount] {
            column.reverse();
        }
        run.accepted(&Lent::of(&sheet), units, format_args!("reversed"));
    });
}

#[test]
fn a_faulty_book_has_no_best() {
    let one = |change: fn(&mut Sheet)| {
        let mut sheet = book(&mut Random::new(0x0108), &SHAPES[0], 9);
        change(&mut sheet);
        optimise(&sheet).map(|_| ())
    };
    let holding = 4;
    assert_eq!(one(|_| {}), Ok(()));
    assert_eq!(
        one(|sheet| sheet.maturity.push(1)),
        Err(Refusal::ColumnsDiffer)
    );
    assert_eq!(
        one(|sheet| sheet.head.date = 2025_02_29),
        Err(Refusal::DateInvalid { holding: 0 })
    );
    assert_eq!(
        one(|sheet| sheet.head.letter = 2),
        Err(Refusal::AccountUnknown)
    );
    assert_eq!(
        one(|sheet| sheet.currency.clear()),
        Err(Refusal::ColumnsDiffer)
    );
    assert_eq!(
        one(|sheet| sheet.side[4] = 2),
        Err(Refusal::SideUnknown { holding })
    );
    assert_eq!(
        one(|sheet| sheet.kind[4] = 3),
        Err(Refusal::KindUnknown { holding })
    );
    assert_eq!(
        one(|sheet| sheet.issuer[4] = 13),
        Err(Refusal::IssuerUnknown { holding })
    );
    assert_eq!(
        one(|sheet| sheet.maturity[4] = 0),
        Err(Refusal::DateInvalid { holding })
    );
    assert_eq!(
        one(|sheet| sheet.maturity[4] = sheet.head.date),
        Err(Refusal::MaturityOutOfRange { holding })
    );
    assert_eq!(
        one(|sheet| sheet.value[4] = 0),
        Err(Refusal::ValueOutOfRange { holding })
    );
    assert_eq!(
        one(|sheet| sheet.currency[4] = 3),
        Err(Refusal::CurrencyUnknown { holding })
    );
    assert_eq!(
        one(|sheet| sheet.rating[4] = 1),
        Err(Refusal::RatingInvalid { holding })
    );
    assert_eq!(
        one(|sheet| sheet.rating.clear()),
        Err(Refusal::ColumnsDiffer)
    );
    let many = book(&mut Random::new(1), &SHAPES[0], 257);
    assert_eq!(optimise(&many), Err(Refusal::TooManyHoldings));
}
