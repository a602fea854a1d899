//! Histories typed by hand.

use super::{BLANK, History, Step};
use crate::{Order, Row, VALUED, client, participant};
use margin_host::Head;

const BOND: Row = Row {
    issuer: 7,
    maturity: 2030_06_24,
    value: 1_000,
    ..BLANK
};
const COUPON: Row = Row { kind: 1, ..BOND };
const MOST: u64 = 100_000_000_000;

fn add(row: Row, value: u64) -> Step {
    Step::Order(Order::Add(Row { value, ..row }))
}

fn take(row: Row, value: u64) -> Step {
    Step::Order(Order::Take(Row { value, ..row }))
}

fn move_to(to: u64) -> Step {
    Step::Order(Order::Move(to))
}

pub(super) fn add_to(list: &mut Vec<History>) {
    let mut history = |title: &str, start: Step, steps: &[Step]| {
        let steps = [&[start], steps, &[Step::Show]].concat();
        let title = title.to_string();
        list.push(History { title, steps });
    };
    let empty = Step::New(participant(VALUED));
    history(
        "joining, adding, taking, leaving and joining again",
        empty,
        &joining(),
    );
    history("the limits of a value", empty, &limits());
    history(
        "each part of a description",
        Step::New(client(VALUED)),
        &descriptions(),
    );
    history("descriptions at fault", empty, &at_fault());
    history("moving", Step::New(client(VALUED)), &moving());
    history(
        "moving over the ends of months",
        Step::New(participant(2024_01_30)),
        &month_ends(),
    );
    history(
        "a valuation date that is none",
        Step::New(client(2025_02_29)),
        &[add(BOND, 1), move_to(2026_01_01)],
    );
    let nobody = Step::New(Head {
        date: VALUED,
        letter: 2,
    });
    history(
        "nobody's account",
        nobody,
        &[add(BOND, 1), take(BOND, 1), move_to(2026_01_01)],
    );
}

fn joining() -> Vec<Step> {
    let short = Row { side: 1, ..BOND };
    vec![
        add(BOND, 1_000),
        add(COUPON, 2_000),
        add(short, 3_000),
        add(BOND, 1),
        take(COUPON, 500),
        take(BOND, 1_001),
        add(BOND, 7),
        take(COUPON, 1_500),
        take(short, 3_000),
        take(BOND, 7),
        take(BOND, 7),
    ]
}

fn limits() -> Vec<Step> {
    vec![
        add(BOND, 0),
        add(BOND, MOST + 1),
        add(BOND, u64::MAX),
        add(BOND, MOST),
        add(BOND, 1),
        add(BOND, u64::MAX),
        take(BOND, 0),
        take(BOND, MOST + 1),
        take(BOND, u64::MAX),
        take(BOND, 1),
        add(BOND, 2),
        add(BOND, 1),
        add(COUPON, MOST),
        take(COUPON, MOST),
        take(COUPON, 1),
        take(BOND, MOST),
    ]
}

/// Rows that differ from a corporation's bond in one part, each added and then taken but for one cent.
fn descriptions() -> Vec<Step> {
    let bond = Row {
        issuer: 100,
        rating: 0,
        ..BOND
    };
    let rows = [
        bond,
        Row { side: 1, ..bond },
        Row { kind: 1, ..bond },
        Row { kind: 2, ..bond },
        Row {
            issuer: 101,
            ..bond
        },
        Row {
            issuer: 355,
            ..bond
        },
        Row {
            maturity: 2030_06_25,
            ..bond
        },
        Row {
            maturity: 2060_06_24,
            kind: 2,
            ..bond
        },
        Row {
            currency: 1,
            ..bond
        },
        Row {
            currency: 2,
            ..bond
        },
        Row { rating: 1, ..bond },
    ];
    let adds = rows.iter().map(|row| add(*row, 1_000));
    let takes = rows.iter().rev().map(|row| take(*row, 999));
    adds.chain(takes).collect()
}

fn at_fault() -> Vec<Step> {
    let faults = [
        Row { issuer: 99, ..BOND },
        Row { issuer: 13, ..BOND },
        Row {
            issuer: u64::MAX,
            maturity: 0,
            ..BOND
        },
        Row {
            maturity: 2030_06_31,
            ..BOND
        },
        Row {
            maturity: 0,
            rating: 0,
            ..BOND
        },
        Row {
            maturity: 2300_01_01,
            ..BOND
        },
        Row {
            maturity: VALUED,
            ..BOND
        },
        Row {
            maturity: 1900_01_01,
            ..BOND
        },
        Row {
            maturity: 2125_01_02,
            rating: 0,
            ..BOND
        },
        Row { rating: 0, ..BOND },
        Row {
            issuer: 100,
            ..BOND
        },
    ];
    let mut steps = vec![add(BOND, 5)];
    for row in faults {
        steps.extend([add(row, 0), take(row, 0)]);
    }
    steps.extend([
        add(
            Row {
                maturity: 2125_01_01,
                ..BOND
            },
            3,
        ),
        take(BOND, 5),
    ]);
    steps
}

fn moving() -> Vec<Step> {
    let canada = Row {
        issuer: 0,
        maturity: 2026_01_01,
        ..BOND
    };
    vec![
        move_to(VALUED),
        move_to(2025_01_02),
        add(canada, 1_000),
        add(
            Row {
                kind: 1,
                maturity: 2045_01_02,
                ..canada
            },
            2_000,
        ),
        add(COUPON, 3_000),
        add(
            Row {
                issuer: 100,
                rating: 1,
                maturity: 2028_02_29,
                ..BOND
            },
            4_000,
        ),
        move_to(2025_01_02),
        move_to(2025_01_01),
        move_to(0),
        move_to(u64::MAX),
        move_to(2025_02_29),
        move_to(2025_01_03),
        move_to(2025_02_28),
        move_to(2025_03_01),
        move_to(2025_12_31),
        move_to(2026_01_01),
        move_to(2299_12_31),
        take(canada, 1_000),
        move_to(2026_01_01),
        move_to(2028_03_01),
        move_to(2028_02_28),
        take(
            Row {
                issuer: 100,
                rating: 1,
                maturity: 2028_02_29,
                ..BOND
            },
            3_999,
        ),
        move_to(2028_02_29),
    ]
}

/// Maturities at the ends of months and of leap years, and each day about them.
fn month_ends() -> Vec<Step> {
    let on = |maturity, kind| Row {
        issuer: 0,
        maturity,
        kind,
        ..BOND
    };
    let mut steps = vec![
        add(on(2024_03_01, 0), 10),
        add(on(2025_02_28, 1), 20),
        add(on(2027_02_28, 2), 30),
    ];
    let days = [
        2024_01_31, 2024_02_01, 2024_02_28, 2024_02_30, 2024_02_29, 2024_03_01,
    ];
    steps.extend(days.map(move_to));
    steps.push(take(on(2024_03_01, 0), 10));
    let days = [
        2024_03_01, 2024_03_31, 2024_04_31, 2024_04_30, 2024_12_31, 2025_02_27, 2025_02_28,
    ];
    steps.extend(days.map(move_to));
    steps
}
