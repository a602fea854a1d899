//! Histories of orders, accepted and refused, against the calculator's ledger, which keeps no list.

mod support;

use std::fs;
use std::path::Path;

use margin_calculator::dealing::{Dealer, Style, fault_of_numbers};
use margin_calculator::histories::{Desk, PLACES, Step, all, stdin, stdout};
use margin_calculator::samples::{
    ANY, CORPORATE, DOMESTIC, GOVERNMENTS, PERIODS, SHAPES, Shape, valuation_date,
};
use margin_calculator::{CLIENT, Ledger, Order, PARTICIPANT, Row};
use margin_host::Head;
use support::booking::{LentBook, Orders, records, total_bytes};

/// First maturities, which a few moves reach, and values that add up to the limit.
const NEAR: Shape = Shape {
    name: "first periods and high values",
    terms: &[PERIODS[0], PERIODS[1]],
    values: &[(1, 100), (1, 100_000_000_000)],
    ..ANY
};

/// Gives so many orders to an empty book in a list of so many places, and follows them in the ledger.
fn history(orders: &mut Orders, style: Style, head: Head, room: usize, count: usize) -> usize {
    let mut ledger = Ledger::new(head, room);
    let mut book = LentBook::of(head, &[], room);
    // Bytes that make no whole record, and those after the totals and the answer.
    book.list
        .extend(vec![0xA5; orders.random.place(Row::LENGTH)]);
    book.totals.extend(vec![0x5A; orders.random.place(20)]);
    book.answer += orders.random.place(10);
    let mut dealer = Dealer::new(&mut orders.random, style, &ledger);
    let mut most = 0;
    for turn in 0..count {
        let order = dealer.order(&mut orders.random, &ledger);
        let wanted = ledger.order(&order);
        let what = format_args!("{}, turn {turn}", style.shape.name);
        let left = orders.compare(&book, &order, what);
        let (number, first) = match wanted {
            Ok(count) => (0, count as u64),
            Err(refusal) => (refusal.number(), refusal.place()),
        };
        assert_eq!(
            (left.number, left.figures()),
            (number, Some((first, 0))),
            "{what}: {order:?}"
        );
        // The holdings stand first in the list, and every byte after them is as it was.
        let mut list = records(&ledger.holdings());
        list.extend_from_slice(&book.list[list.len()..]);
        assert!(left.list() == list, "the list, {what}: {order:?}");
        let mut totals = total_bytes(ledger.totals());
        totals.extend_from_slice(&book.totals[totals.len()..]);
        assert!(left.totals() == totals, "the totals, {what}: {order:?}");
        book = left.book(&book, &order);
        assert_eq!(book.head, ledger.head(), "{what}: {order:?}");
        most = most.max(book.count as usize);
    }
    most
}

fn style(shape: Shape, different: usize, whole: u64, moves: u64) -> Style {
    Style {
        shape,
        different,
        whole,
        moves,
        fault: fault_of_numbers,
    }
}

fn head(orders: &mut Orders) -> Head {
    let date = valuation_date(&mut orders.random);
    let letter = orders.random.pick(&[PARTICIPANT, CLIENT]);
    Head { date, letter }
}

#[test]
fn short_histories_of_every_shape() {
    let mut orders = Orders::new("short histories", 0x0E01);
    for round in 0..6 {
        for shape in SHAPES {
            let different = 1 + orders.random.place(8);
            let style = style(shape, different, round, 5 * round);
            let head = head(&mut orders);
            let room = orders.random.place(9);
            history(&mut orders, style, head, room, 60);
        }
    }
    orders.has_seen(&[0, 2, 4, 5, 6, 7, 8, 23, 24, 25, 27], 20);
}

#[test]
fn long_histories() {
    let mut orders = Orders::new("long histories", 0x0E02);
    for (shape, different, whole, moves) in [
        (ANY, 10, 4, 5),
        (NEAR, 8, 4, 30),
        (GOVERNMENTS, 20, 3, 10),
        (CORPORATE, 15, 5, 10),
        (DOMESTIC, 4, 6, 2),
    ] {
        let head = head(&mut orders);
        history(
            &mut orders,
            style(shape, different, whole, moves),
            head,
            256,
            1_500,
        );
    }
    orders.has_seen(&[0, 4, 5, 6, 7, 8, 23, 24, 25, 27], 10);
}

#[test]
fn histories_that_fill_the_book() {
    let mut orders = Orders::new("histories that fill the book", 0x0E03);
    for room in [255, 256, 257, 300] {
        let head = head(&mut orders);
        let many = style(ANY, 400, 1, 1);
        let most = history(&mut orders, many, head, room, 2_500);
        assert_eq!(most, room.min(256), "the book is full once");
    }
    orders.has_seen(&[0, 2, 3], 20);
}

/// Steps of the program's histories that come from an empty book, against the ledger.
#[test]
fn the_histories_of_the_program() {
    let mut orders = Orders::fixed("the histories of the program");
    let mut desk = Desk::new();
    let mut from_empty = 0;
    for history in all() {
        let lent = |step: &Step| matches!(step, Step::Put(..) | Step::Store(_));
        let ledgered = !history.steps.iter().any(lent);
        from_empty += usize::from(ledgered);
        let mut ledger = None;
        for step in &history.steps {
            let (rows, day) = (desk.places(), desk.day());
            let printed = desk.step(step);
            if let Step::New(head) = step {
                ledger = Some(Ledger::new(*head, PLACES));
            }
            let Step::Order(order) = step else { continue };
            let mut book = LentBook::stored(day.head, &rows, day.totals, rows.len());
            book.count = day.count;
            let what = format_args!("{}", history.title);
            let left = orders.compare(&book, order, what);
            let figures = left.figures().expect("an answer");
            assert!(
                printed.starts_with(&format!("{},{},", left.number, figures.0)),
                "{what}: {order:?}"
            );
            if let (Some(ledger), true) = (&mut ledger, ledgered) {
                let wanted = ledger.order(order).map_or_else(
                    |refusal| (refusal.number(), refusal.place()),
                    |count| (0, count as u64),
                );
                assert_eq!((left.number, figures.0), wanted, "{what}: {order:?}");
                let count = desk.day().count as usize;
                assert_eq!(
                    desk.places()[..count],
                    ledger.holdings(),
                    "{what}: {order:?}"
                );
                assert_eq!(desk.day().totals, ledger.totals(), "{what}: {order:?}");
            }
        }
    }
    assert!(
        from_empty >= 25,
        "{from_empty} histories from an empty book"
    );
    orders.has_seen(&[0, 3, 6, 7, 8, 24, 25, 26, 27], 10);
    // The list has a place for every holding, and no holding of it a side, kind or currency that is none.
    for number in [2, 4, 5, 23] {
        assert_eq!(orders.seen[number], 0, "{number}");
    }
    let count: usize = orders.seen.iter().sum();
    assert!((1_500..3_000).contains(&count), "{count} orders");
}

#[test]
fn the_files_are_those_of_the_histories() {
    let folder = Path::new(env!("CARGO_MANIFEST_DIR")).join("../crates/bookings");
    for (name, bytes) in [("stdin", stdin(&all())), ("stdout", stdout(&all()))] {
        let path = folder.join(name);
        let kept = fs::read(&path).expect("the file is there");
        assert!(
            kept == bytes,
            "{} is old: write it with `cargo run --release --bin bookings -- {name}`",
            path.display()
        );
    }
}

#[test]
fn taken_whole_in_every_order() {
    // Six holdings leave in each of the 720 orders, and one that has left joins at the end.
    let mut orders = Orders::fixed("taken whole in every order");
    let head = Head {
        date: 2025_01_01,
        letter: PARTICIPANT,
    };
    let row = |at: u64| Row {
        side: at % 2,
        kind: at % 3,
        issuer: at,
        maturity: 2026_01_01 + 10_000 * at,
        value: 100 + at,
        currency: at % 3,
        rating: 2,
    };
    let all: Vec<Row> = (0..6).map(row).collect();
    for code in 0..720 {
        let (mut book, mut rows) = (LentBook::of(head, &all, 6), all.clone());
        let mut code = code;
        for left in (1..=6).rev() {
            let gone = rows.remove(code % left);
            code /= left;
            book = orders.accepted(&book, &Order::Take(gone), &rows, format_args!("{gone:?}"));
            if left == 4 {
                rows.push(gone);
                book = orders.accepted(
                    &book,
                    &Order::Add(gone),
                    &rows,
                    format_args!("{gone:?} again"),
                );
                rows.remove(3);
                book = orders.accepted(
                    &book,
                    &Order::Take(gone),
                    &rows,
                    format_args!("{gone:?} again"),
                );
            }
        }
    }
}
