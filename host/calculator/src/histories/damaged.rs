//! Lent books with faults of their own, which come before those of an order.

use super::{BLANK, Day, History, PLACES, Step};
use crate::{Order, Row, VALUED, participant, totals_of};
use margin_host::Head;

const COUNT: usize = 5;

/// Five holdings, of which two are alike in all but the value.
fn rows() -> [Row; COUNT] {
    let bond = Row {
        issuer: 7,
        maturity: 2030_06_24,
        value: 1_000,
        ..BLANK
    };
    let corporate = Row {
        issuer: 100,
        rating: 1,
        ..bond
    };
    let coupon = Row {
        kind: 1,
        maturity: 2050_01_01,
        ..bond
    };
    [
        bond,
        corporate,
        Row { value: 600, ..bond },
        coupon,
        Row { side: 1, ..bond },
    ]
}

fn stored() -> Day {
    Day {
        head: participant(VALUED),
        count: COUNT as u64,
        totals: totals_of(participant(VALUED), &rows()),
    }
}

/// An order of each sort, all without fault, and one of each with a fault that a fault of the book comes before.
fn orders() -> Vec<Step> {
    let [bond, ..] = rows();
    let unknown = Row { issuer: 99, ..bond };
    let orders = [
        Order::Add(bond),
        Order::Take(bond),
        Order::Move(2026_01_01),
        Order::Add(unknown),
        Order::Take(unknown),
        Order::Move(0),
    ];
    orders.map(Step::Order).to_vec()
}

pub(super) fn add_to(list: &mut Vec<History>) {
    let sound = sound();
    let mut history = |title: &str, steps: Vec<Step>| {
        let steps = [sound.clone(), steps, vec![Step::Show]].concat();
        let title = title.to_string();
        list.push(History { title, steps });
    };
    history("a lent book with two holdings alike", alike());
    history("a lent book with totals that are off", off());
    history(
        "a lent book with its date, letter or count at fault",
        heads(),
    );
    history("lent holdings with a fault", holdings());
}

/// The sound book, put into the list.
fn sound() -> Vec<Step> {
    let puts = (0..).zip(rows()).map(|(place, row)| Step::Put(row, place));
    let start = [Step::New(participant(VALUED))];
    start
        .into_iter()
        .chain(puts)
        .chain([Step::Store(stored())])
        .collect()
}

/// Only the first of two equal holdings counts, for adding and for taking, until it leaves.
fn alike() -> Vec<Step> {
    let [bond, ..] = rows();
    let of = |value| Row { value, ..bond };
    let orders = [
        Order::Take(of(1_001)),
        Order::Take(of(999)),
        Order::Add(of(100_000_000_000)),
        Order::Add(of(99_999_999_999)),
        Order::Add(of(1)),
        Order::Take(of(100_000_000_000)),
        Order::Take(of(601)),
        Order::Take(of(600)),
        Order::Take(of(1)),
        Order::Add(of(1)),
    ];
    orders.map(Step::Order).to_vec()
}

/// Each total one too high and one too low, or two of them exchanged.
fn off() -> Vec<Step> {
    let mut steps = Vec::new();
    for period in 0..5 {
        let mut day = stored();
        day.totals[period] += 1;
        steps.push(Step::Store(day));
        steps.extend(orders());
        day.totals[period] = stored().totals[(period + 1) % 5].wrapping_sub(1);
        steps.push(Step::Store(day));
        steps.extend(orders());
    }
    let mut day = stored();
    day.totals.swap(2, 4);
    steps.push(Step::Store(day));
    steps.extend(orders());
    steps.push(Step::Store(stored()));
    steps
}

fn heads() -> Vec<Step> {
    let with = |date, letter, count| Day {
        head: Head { date, letter },
        count,
        ..stored()
    };
    let days = [
        with(VALUED, 0, COUNT as u64 + 1),
        with(VALUED, 0, PLACES as u64),
        with(VALUED, 0, PLACES as u64 + 1),
        with(VALUED, 0, u64::MAX),
        with(0, 2, PLACES as u64 + 1),
        with(0, 2, COUNT as u64),
        with(2025_02_29, 0, COUNT as u64),
        with(VALUED, 2, COUNT as u64),
        with(VALUED, u64::MAX, COUNT as u64),
        with(VALUED, 0, COUNT as u64 - 1),
        with(VALUED, 0, 0),
        with(2025_01_02, 0, COUNT as u64),
        with(2030_06_24, 0, COUNT as u64),
    ];
    let mut steps = Vec::new();
    for day in days {
        steps.push(Step::Store(day));
        steps.extend(orders());
    }
    steps.push(Step::Store(stored()));
    steps
}

/// A fault at the first, a middle and the last holding, and at two of them; each is then put back.
fn holdings() -> Vec<Step> {
    let faults: [fn(&mut Row); 11] = [
        |row| row.issuer = 99,
        |row| row.issuer = 13,
        |row| row.maturity = 2030_06_31,
        |row| row.maturity = 0,
        |row| row.maturity = VALUED,
        |row| row.maturity = 2125_01_02,
        |row| row.value = 0,
        |row| row.value = 100_000_000_001,
        |row| row.value = u64::MAX,
        |row| row.rating = if row.rating == 2 { 0 } else { 2 },
        |row| (row.issuer, row.maturity, row.value, row.rating) = (356, 1, 0, 1),
    ];
    let mut steps = Vec::new();
    for (turn, fault) in faults.iter().enumerate() {
        let later = faults[(turn + 5) % faults.len()];
        for at in [0, 2, COUNT - 1] {
            let mut damaged = rows();
            fault(&mut damaged[at]);
            if at + 1 < COUNT {
                later(&mut damaged[at + 1]);
            }
            let puts =
                |rows: [Row; COUNT]| (0..).zip(rows).map(|(place, row)| Step::Put(row, place));
            steps.extend(puts(damaged));
            steps.extend(orders().into_iter().skip(turn % 3).step_by(3));
            steps.extend(puts(rows()));
        }
    }
    steps
}
