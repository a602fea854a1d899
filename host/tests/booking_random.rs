//! Lent books with random damages, and random bytes: only the calculator says what comes out.

mod support;

use margin_calculator::samples::{Random, SHAPES, holdings, valuation_date};
use margin_calculator::{Order, Row, VALUED, calendar, totals_of};
use margin_host::Head;
use support::booking::{LentBook, Orders, total_bytes};

/// Numbers at which something changes in the papers, and a few far away.
const PROBES: [u64; 30] = [
    0,
    1,
    2,
    3,
    10,
    11,
    12,
    13,
    99,
    100,
    355,
    356,
    255,
    256,
    257,
    1899_12_31,
    1900_01_01,
    2024_02_29,
    2025_01_01,
    2025_02_29,
    2026_01_01,
    2125_01_01,
    2299_12_31,
    2300_01_01,
    100_000_000_000,
    100_000_000_001,
    1 << 32,
    1 << 63,
    u64::MAX - 1,
    u64::MAX,
];

fn changed(random: &mut Random, number: u64) -> u64 {
    match random.below(5) {
        0 => number.wrapping_add(1),
        1 => number.wrapping_sub(1),
        2 => random.below(20),
        3 => number ^ (1 << random.below(64)),
        _ => random.pick(&PROBES),
    }
}

fn damaged(random: &mut Random, row: Row) -> Row {
    let mut numbers = row.to_numbers();
    let at = random.place(numbers.len());
    numbers[at] = changed(random, numbers[at]);
    Row::from_numbers(numbers)
}

/// A trade of a holding, with a value of its own or its own value.
fn trade(random: &mut Random, rows: &[Row]) -> Row {
    let row = match rows {
        [] => Row::default(),
        _ => random.pick(rows),
    };
    match random.below(3) {
        0 => row,
        1 => Row {
            value: 1 + random.below(row.value.clamp(1, 1_000)),
            ..row
        },
        _ => damaged(random, row),
    }
}

fn order(random: &mut Random, head: Head, rows: &[Row]) -> Order {
    let trade = trade(random, rows);
    match random.below(5) {
        0 | 1 => Order::Add(trade),
        2 | 3 => Order::Take(trade),
        _ => {
            let place = calendar::place(head.date).unwrap_or_default();
            let to = calendar::dates()[(place + random.place(40)).min(146_096)];
            let wild = changed(random, to);
            Order::Move(random.pick(&[to, to, wild]))
        }
    }
}

/// Changes one thing of a book that is lent. The totals may follow the holdings.
fn damage(random: &mut Random, book: &mut LentBook) {
    match random.below(12) {
        0 => book.head.date = changed(random, book.head.date),
        1 => book.head.letter = changed(random, book.head.letter),
        2 => book.count = changed(random, book.count),
        3 => book.list.truncate(random.place(book.list.len() + 1)),
        4 => book.totals.truncate(random.place(book.totals.len() + 1)),
        5 => book.answer = random.place(20),
        6 if !book.totals.is_empty() => {
            let at = random.place(book.totals.len());
            book.totals[at] ^= 1 << random.below(8);
        }
        _ => {
            let places = book.list.len() / Row::LENGTH;
            if places > 0 {
                let place = random.place(places);
                book.change(place, |row| *row = damaged(random, *row));
            }
        }
    }
}

#[test]
fn lent_books_with_random_damages() {
    let mut orders = Orders::new("random damages", 0x0E41);
    for round in 0..1_500 {
        let shape = orders.random.pick(&SHAPES);
        let head = Head {
            date: valuation_date(&mut orders.random),
            letter: orders.random.below(2),
        };
        let size = orders.random.place(if round % 20 == 0 { 257 } else { 12 });
        let rows = holdings(&mut orders.random, &shape, head.date, size);
        let room = size + orders.random.place(3);
        let sound = LentBook::of(head, &rows, room);
        for damages in [0, 0, 1, 1, 2, 3] {
            let mut book = sound.clone();
            for _ in 0..damages {
                damage(&mut orders.random, &mut book);
            }
            let order = order(&mut orders.random, head, &rows);
            orders.compare(
                &book,
                &order,
                format_args!("{}, {damages} damages", shape.name),
            );
        }
    }
    orders.has_seen(&[0, 2, 3, 4, 5, 6, 7, 8, 23, 24, 25, 26, 27], 10);
}

#[test]
fn damaged_holdings_that_are_still_sound() {
    // One number of one holding changes and the totals with it: what is then equal, and where it is put.
    let mut orders = Orders::new("damaged holdings that are still sound", 0x0E42);
    for _ in 0..3_000 {
        let shape = orders.random.pick(&SHAPES);
        let head = Head {
            date: VALUED,
            letter: 0,
        };
        let size = 1 + orders.random.place(8);
        let mut rows = holdings(&mut orders.random, &shape, VALUED, size);
        let trade = trade(&mut orders.random, &rows);
        for _ in 0..2 {
            let (from, to) = (orders.random.place(size), orders.random.place(size));
            rows[to] = rows[from];
        }
        let place = orders.random.place(size);
        let damaged = damaged(&mut orders.random, rows[place]);
        let mut book = LentBook::of(head, &rows, size);
        book.change(place, |row| *row = damaged);
        let sound = orders.compare(&book, &Order::Move(0), format_args!("{}", shape.name));
        if sound.number == 27 {
            let totals = totals_of(head, &book.rows());
            book.totals = total_bytes(totals);
        }
        for order in [
            Order::Add(trade),
            Order::Take(trade),
            Order::Take(damaged),
            Order::Add(rows[place]),
        ] {
            orders.compare(&book, &order, format_args!("{}", shape.name));
        }
    }
    orders.has_seen(&[0, 2, 24, 27], 100);
}

#[test]
fn random_bytes() {
    let mut orders = Orders::new("random bytes of a book", 0x0E43);
    for _ in 0..3_000 {
        let random = &mut orders.random;
        let bytes = |random: &mut Random, most: usize| -> Vec<u8> {
            let length = random.place(most);
            (0..length).map(|_| random.bits() as u8).collect()
        };
        let book = LentBook {
            list: bytes(random, 300),
            count: random.below(6),
            totals: bytes(random, 60),
            head: Head {
                date: random.pick(&[VALUED, VALUED, 0]),
                letter: random.below(3),
            },
            answer: random.place(40),
        };
        let row = Row::from_numbers(std::array::from_fn(|_| random.pick(&PROBES)));
        let to = random.pick(&PROBES);
        let order = random.pick(&[Order::Add(row), Order::Take(row), Order::Move(to)]);
        orders.compare(&book, &order, format_args!("random"));
    }
}
