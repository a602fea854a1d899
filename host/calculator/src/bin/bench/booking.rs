//! Calls a second of the exported bookings and of the calculator's plain ones.

use std::hint::black_box;

use margin_calculator::samples::{ANY, DOMESTIC, PERIODS, Random, Shape, holdings};
use margin_calculator::{
    Order, Row, VALUED, margin_add, margin_move, margin_take, participant, totals_of,
};
use margin_host::{Head, raw};

use crate::SEED;
use crate::timing::{BATCHES, rates};

type Trading = fn(&mut [u8], u64, &mut [u8], u64, u64, &Row, &mut [u8]) -> u64;
type Moving = fn(&[u8], u64, &mut [u8], u64, u64, u64, &mut [u8]) -> u64;

/// An adding, a taking and a move.
type Calls = (Trading, Trading, Moving);

/// The exported bookings and the calculator's.
const CALLS: [Calls; 2] = [
    (raw::margin_add, raw::margin_take, raw::margin_move),
    (margin_add, margin_take, margin_move),
];

/// Holdings in the first period alone, where days are counted.
const FIRST_PERIOD: Shape = Shape {
    terms: &[PERIODS[0]],
    ..DOMESTIC
};

/// A book as it is lent.
#[derive(Clone, PartialEq, Eq)]
struct Lent {
    head: Head,
    list: Vec<u8>,
    count: u64,
    totals: [[u8; 8]; 5],
    answer: [u8; 16],
}

/// Prints a line for each book and what is ordered in turn.
pub fn run() {
    println!(
        "Books from seed {SEED:#x}, valued on 2025-01-01; any issuer, currency and period, or"
    );
    println!("Canada and the provinces in CAD in the first period, where days are counted.");
    println!("Two orders in turn leave the book as it was; before a move its totals are put back.");
    println!("Median of {BATCHES} alternating batches; orders a second, and their ratio.");
    println!();
    println!(
        "{:>8}  {:<13} {:<33} {:>6}  {:>12}  {:>12}  {:>14}",
        "holdings", "book", "orders", "number", "booking", "plain", "booking/plain"
    );
    for size in [1, 16, 256] {
        for (name, shape) in [("any issuer", ANY), ("first period", FIRST_PERIOD)] {
            print_lines(name, &shape, size);
        }
    }
}

fn print_lines(book: &str, shape: &Shape, size: usize) {
    let rows = distinct(shape, size);
    let last = rows[size - 1];
    let cent = Row { value: 1, ..last };
    let much = Row {
        value: last.value + 1,
        ..last
    };
    let leaves_and_joins = |row: &Row| [Order::Take(*row), Order::Add(*row)];
    let lines = [
        (
            "a cent to the last and from it",
            0,
            vec![Order::Add(cent), Order::Take(cent)],
        ),
        (
            "the last leaves and joins",
            0,
            leaves_and_joins(&last).to_vec(),
        ),
        (
            "the first leaves and joins last",
            0,
            rows.iter().flat_map(leaves_and_joins).collect(),
        ),
        ("move to the next day", 0, vec![Order::Move(2025_01_02)]),
        (
            "more is taken than the last holds",
            27,
            vec![Order::Take(much)],
        ),
    ];
    for (name, number, orders) in lines {
        let [ours, plain] = measure(&rows, &orders, number);
        let ratio = ours / plain;
        println!(
            "{size:>8}  {book:<13} {name:<33} {number:>6}  {ours:>12.0}  {plain:>12.0}  {ratio:>14.2}"
        );
    }
}

/// So many holdings of a shape that mature after the next day, no two alike in all but the value.
fn distinct(shape: &Shape, size: usize) -> Vec<Row> {
    let mut random = Random::new(SEED);
    let mut rows: Vec<Row> = Vec::with_capacity(size);
    while rows.len() < size {
        let row = Row {
            value: 1_000_000 + rows.len() as u64,
            ..holdings(&mut random, shape, VALUED, 1)[0]
        };
        let alike = |other: &Row| {
            Row {
                value: row.value,
                ..*other
            } == row
        };
        if row.maturity > 2025_01_02 && !rows.iter().any(alike) {
            rows.push(row);
        }
    }
    rows
}

/// Orders a second of the exported bookings and of the plain ones. They are given in turn, over and over; each must get
/// this number, and all of them leave the book as it was.
fn measure(rows: &[Row], orders: &[Order], number: u64) -> [f64; 2] {
    let head = participant(VALUED);
    let fresh = Lent {
        head,
        list: rows.iter().flat_map(|row| row.to_bytes()).collect(),
        count: rows.len() as u64,
        totals: totals_of(head, rows).map(u64::to_le_bytes),
        answer: [1; 16],
    };
    let [mut ours, mut plain] = CALLS.each_ref().map(|calls| Desk {
        calls,
        orders,
        fresh: &fresh,
        lent: fresh.clone(),
        turn: 0,
    });
    for _ in orders {
        let numbers = [ours.next_order(), plain.next_order()];
        assert_eq!(numbers, [number; 2], "both give the number");
        assert!(ours.lent == plain.lent, "both leave the same bytes");
    }
    let rates = rates([
        &mut || {
            black_box(black_box(&mut ours).next_order());
        },
        &mut || {
            black_box(black_box(&mut plain).next_order());
        },
    ]);
    for desk in [&mut ours, &mut plain] {
        while desk.turn != 0 {
            desk.next_order();
        }
        assert!(desk.lent.list == fresh.list, "the book is as it was");
    }
    assert!(ours.lent == plain.lent, "both still leave the same bytes");
    rates
}

/// Gives its orders in turn.
struct Desk<'a> {
    calls: &'a Calls,
    orders: &'a [Order],
    fresh: &'a Lent,
    lent: Lent,
    turn: usize,
}

impl Desk<'_> {
    fn next_order(&mut self) -> u64 {
        let (add, take, move_to) = self.calls;
        let lent = &mut self.lent;
        let Head { date, letter } = lent.head;
        let (list, count, answer) = (&mut lent.list, lent.count, &mut lent.answer);
        if let Order::Move(_) = self.orders[self.turn] {
            lent.totals = self.fresh.totals;
        }
        let totals = lent.totals.as_flattened_mut();
        let number = match &self.orders[self.turn] {
            Order::Add(row) => add(list, count, totals, date, letter, row, answer),
            Order::Take(row) => take(list, count, totals, date, letter, row, answer),
            Order::Move(to) => move_to(list, count, totals, date, letter, *to, answer),
        };
        if number == 0 {
            lent.count = u128::from_le_bytes(*answer) as u64;
        }
        self.turn += 1;
        if self.turn == self.orders.len() {
            self.turn = 0;
        }
        number
    }
}
