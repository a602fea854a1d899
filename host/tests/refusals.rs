//! Each refusal at the first, a middle and the last place, and every two and three of them together.

mod support;

use support::Run;
use support::faults::{Fault, HOLDINGS, NUMBERS, PAIRS, VALUATION, plant, sound};
use support::lent::Lent;

/// The first, a middle and the last place.
fn ends(places: u64) -> [u64; 3] {
    [0, places / 2, places - 1]
}

#[test]
fn the_sound_sheet_is_accepted() {
    let mut run = Run::fixed("the sound sheet");
    // Paired coupons ask nothing; two bonds of 500 cents at 5 per cent ask 50 cents.
    run.accepted(
        &Lent::of(&sound()),
        50 * 146_000,
        format_args!("as it stands"),
    );
}

#[test]
fn each_refusal_at_each_place() {
    let mut run = Run::fixed("each refusal at each place");
    for number in NUMBERS {
        for place in 0..Fault::places(number) {
            for short in ends(PAIRS) {
                let fault = Fault::at(number, place, PAIRS + short);
                run.refused(&plant(&[fault]), fault.answer(), format_args!("{fault:?}"));
            }
        }
    }
}

#[test]
fn of_uncovered_pairs_the_lowest_long_and_then_its_lowest_short() {
    // Which prices are lowered by one, and the pair that is named: longs are 0 to 5, shorts 6 to 11.
    let mut run = Run::fixed("several uncovered pairs");
    let cases = [
        (&[0][..], (0, 6)),
        (&[3], (3, 6)),
        (&[5, 2], (2, 6)),
        (&[11], (0, 11)),
        (&[10, 8], (0, 8)),
        (&[1, 11], (0, 11)),
        (&[0, 11], (0, 6)),
        (&[5, 6], (0, 6)),
    ];
    for (lowered, (long, short)) in cases {
        let mut sheet = sound();
        for holding in lowered {
            sheet.price[*holding] -= 1;
        }
        run.refused(
            &Lent::of(&sheet),
            (16, long, short),
            format_args!("{lowered:?}"),
        );
    }
}

/// Two faults that need the same entry cannot both be planted.
fn together(one: &Fault, other: &Fault) -> bool {
    one.place != other.place || !matches!((one.number, other.number), (14, 15) | (15, 14))
}

fn first_in_turn(faults: &[Fault]) -> Fault {
    *faults
        .iter()
        .min_by_key(|fault| fault.turn())
        .expect("there is a fault")
}

#[test]
fn of_two_faults_the_earlier_in_the_papers_order_wins() {
    let mut run = Run::fixed("every two refusals");
    let mut pairs = 0;
    for (at, one) in NUMBERS.into_iter().enumerate() {
        for other in NUMBERS.into_iter().skip(at + 1) {
            pairs += 1;
            for place in ends(Fault::places(one)) {
                for second in ends(Fault::places(other)) {
                    let faults = [
                        Fault::at(one, place, PAIRS),
                        Fault::at(other, second, 2 * PAIRS - 1),
                    ];
                    if together(&faults[0], &faults[1]) {
                        let wanted = first_in_turn(&faults).answer();
                        run.refused(&plant(&faults), wanted, format_args!("{faults:?}"));
                    }
                }
            }
        }
    }
    assert_eq!(pairs, 22 * 21 / 2);
}

#[test]
fn of_one_refusal_at_two_places_the_earlier_place_wins() {
    let mut run = Run::fixed("one refusal at two places");
    for number in (4..=8).chain(10..=16).chain(23..=25) {
        for later in 1..Fault::places(number) {
            for earlier in 0..later {
                let faults = [later, earlier].map(|place| Fault::at(number, place, PAIRS));
                let wanted = (number, earlier, if number == 16 { PAIRS } else { 0 });
                run.refused(&plant(&faults), wanted, format_args!("{faults:?}"));
            }
        }
    }
    // Two shorts that one long leaves uncovered.
    for later in PAIRS + 1..2 * PAIRS {
        for earlier in PAIRS..later {
            let faults = [later, earlier].map(|short| Fault::at(16, 3, short));
            let what = format_args!("{faults:?}");
            run.refused(&plant(&faults), (16, 3, earlier), what);
        }
    }
}

#[test]
fn an_amount_above_one_leg_alone() {
    let mut run = Run::fixed("an amount above one leg alone");
    for line in 0..PAIRS {
        for leg in [line, PAIRS + line] {
            let mut sheet = sound();
            sheet.value[leg as usize] = 999;
            let what = format_args!("1,000 of the 999 of holding {leg}");
            run.refused(&Lent::of(&sheet), (15, line, 0), what);
        }
    }
    // Line 0 takes 600 of both its legs; line 1 shares one of them and has the other for itself.
    for (amount, wanted) in [(400, (17, 0, 0)), (401, (15, 1, 0))] {
        let mut long = sound();
        long.amount[..2].copy_from_slice(&[600, amount]);
        let mut short = long.clone();
        long.long[1] = 0;
        short.short[1] = PAIRS;
        run.refused(&Lent::of(&long), wanted, format_args!("the long, {amount}"));
        let what = format_args!("the short, {amount}");
        run.refused(&Lent::of(&short), wanted, what);
    }
}

#[test]
fn the_order_is_the_papers() {
    // Typed from the papers: two faults, and which of them is named.
    let mut run = Run::fixed("orders from the paper");
    let cases = [
        ([(1, 0), (3, 0)], 0),
        ([(3, 0), (2, 0)], 0),
        ([(9, 0), (2, 0)], 0),
        ([(3, 0), (9, 0)], 0),
        ([(2, 0), (4, 0)], 0),
        ([(10, 0), (4, 1)], 0),
        ([(10, 3), (4, 3)], 1),
        ([(8, 2), (10, 2)], 0),
        ([(8, 2), (23, 2)], 0),
        ([(10, 2), (23, 2)], 1),
        ([(10, 2), (23, 3)], 0),
        ([(23, 2), (4, 3)], 0),
        ([(23, 2), (25, 2)], 0),
        ([(8, 2), (25, 2)], 0),
        ([(10, 2), (25, 2)], 1),
        ([(10, 2), (25, 3)], 0),
        ([(25, 2), (4, 3)], 0),
        ([(24, 2), (25, 2)], 0),
        ([(2, 0), (25, 0)], 0),
        ([(25, HOLDINGS - 1), (11, 0)], 0),
        ([(25, 0), (VALUATION, 0)], 1),
        ([(2, 0), (23, 0)], 0),
        ([(23, HOLDINGS - 1), (11, 0)], 0),
        ([(6, 2), (24, 2)], 0),
        ([(7, 2), (24, 2)], 1),
        ([(8, 2), (24, 2)], 1),
        ([(24, 2), (4, 3)], 0),
        ([(10, 1), (24, 2)], 0),
        ([(24, HOLDINGS - 1), (11, 0)], 0),
        ([(2, 0), (VALUATION, 0)], 0),
        ([(4, 0), (VALUATION, 0)], 1),
        ([(24, 3), (VALUATION, 0)], 1),
        ([(26, 0), (VALUATION, 0)], 1),
        ([(2, 0), (26, 0)], 0),
        ([(26, 0), (4, 0)], 0),
        ([(26, 0), (24, 0)], 0),
        ([(26, 0), (13, 0)], 0),
        ([(26, 0), (16, 0)], 0),
        ([(10, HOLDINGS - 1), (11, 0)], 0),
        ([(15, 1), (11, 2)], 0),
        ([(12, 2), (11, 2)], 1),
        ([(13, 4), (12, 4)], 1),
        ([(14, 4), (13, 4)], 1),
        ([(15, 5), (16, 0)], 0),
        ([(17, 0), (16, 5)], 1),
    ];
    for (pair, first) in cases {
        let faults = pair.map(|(number, place)| Fault::at(number, place, PAIRS));
        let wanted = faults[first as usize].answer();
        run.refused(&plant(&faults), wanted, format_args!("{faults:?}"));
    }
}

#[test]
fn of_three_faults_the_earliest_wins() {
    let mut run = Run::new("every three refusals", 0x0301);
    for round in 0..4 {
        for (at, one) in NUMBERS.into_iter().enumerate() {
            for (between, other) in NUMBERS.into_iter().enumerate().skip(at + 1) {
                for third in NUMBERS.into_iter().skip(between + 1) {
                    let faults = [one, other, third].map(|number| {
                        let place = run.random.below(Fault::places(number));
                        Fault::at(number, place, PAIRS + run.random.below(PAIRS))
                    });
                    if distinct_lines(&faults) {
                        let wanted = first_in_turn(&faults).answer();
                        run.refused(&plant(&faults), wanted, format_args!("{faults:?}, {round}"));
                    }
                }
            }
        }
    }
}

fn distinct_lines(faults: &[Fault; 3]) -> bool {
    let on_lines = |fault: &&Fault| matches!(fault.number, 11..=15);
    let lines: Vec<u64> = faults
        .iter()
        .filter(on_lines)
        .map(|fault| fault.place)
        .collect();
    (1..lines.len()).all(|at| !lines[..at].contains(&lines[at]))
}
