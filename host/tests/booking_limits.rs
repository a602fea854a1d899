//! Orders at the limits of values, of the book and of what is lent, and holdings that a lent book has twice.

mod support;

use std::thread;

use margin_calculator::samples::{ANY, DOMESTIC, holdings};
use margin_calculator::{NOT_RATED, Order, Row, VALUED, client, participant};
use margin_host::raw;
use support::booking::{ANSWER, LentBook, Orders, TOTALS};

const MOST: u64 = 100_000_000_000;
/// The bytes of a thread's stack on which all three are called.
const STACK: usize = 16 * 1_024;
const BOND: Row = Row {
    side: 0,
    kind: 0,
    issuer: 7,
    maturity: 2030_06_24,
    value: 1_000,
    currency: 0,
    rating: NOT_RATED,
};

fn of(value: u64) -> Row {
    Row { value, ..BOND }
}

/// So many holdings, no two of them alike.
fn rows(count: usize) -> Vec<Row> {
    let row = |at: usize| Row {
        issuer: 100 + at as u64 % 256,
        side: at as u64 / 256,
        rating: 0,
        value: 1 + at as u64,
        ..BOND
    };
    (0..count).map(row).collect()
}

#[test]
fn the_limits_of_an_added_value() {
    let mut orders = Orders::fixed("the limits of an added value");
    let empty = LentBook::of(participant(VALUED), &[], 1);
    for value in [1, 2, MOST - 1, MOST] {
        orders.accepted(
            &empty,
            &Order::Add(of(value)),
            &[of(value)],
            format_args!("joins"),
        );
    }
    for value in [0, MOST + 1, 1 << 63, u64::MAX - 1, u64::MAX] {
        orders.refused(
            &empty,
            &Order::Add(of(value)),
            (8, 0),
            format_args!("joins"),
        );
    }
    for held in [1, 2, 1_000, MOST / 2, MOST - 1, MOST] {
        let book = LentBook::of(participant(VALUED), &[of(held)], 1);
        for value in [1, MOST - held - 1, MOST - held] {
            if (1..=MOST - held).contains(&value) {
                let what = format_args!("{value} to {held}");
                orders.accepted(&book, &Order::Add(of(value)), &[of(held + value)], what);
            }
        }
        for value in [
            0,
            MOST - held + 1,
            MOST + 1,
            u64::MAX - held,
            u64::MAX - held + 1,
            u64::MAX,
        ] {
            let what = format_args!("{value} to {held}");
            orders.refused(&book, &Order::Add(of(value)), (8, 0), what);
        }
    }
}

#[test]
fn the_limits_of_a_taken_value() {
    let mut orders = Orders::fixed("the limits of a taken value");
    for held in [1, 2, 1_000, MOST - 1, MOST] {
        let book = LentBook::of(client(VALUED), &[of(held)], 1);
        for value in [1, held / 2, held - 1] {
            if (1..held).contains(&value) {
                let what = format_args!("{value} of {held}");
                orders.accepted(&book, &Order::Take(of(value)), &[of(held - value)], what);
            }
        }
        orders.accepted(
            &book,
            &Order::Take(of(held)),
            &[],
            format_args!("all of {held}"),
        );
        for value in [0, held + 1, MOST + 1, 1 << 63, u64::MAX] {
            let what = format_args!("{value} of {held}");
            orders.refused(&book, &Order::Take(of(value)), (27, 0), what);
        }
    }
    let empty = LentBook::of(client(VALUED), &[], 0);
    for value in [0, 1, u64::MAX] {
        orders.refused(
            &empty,
            &Order::Take(of(value)),
            (27, 0),
            format_args!("of nothing"),
        );
    }
}

#[test]
fn a_part_of_the_description_that_differs() {
    let mut orders = Orders::fixed("a part of the description that differs");
    let bond = Row {
        issuer: 100,
        rating: 0,
        ..BOND
    };
    let others = [
        Row { side: 1, ..bond },
        Row { kind: 1, ..bond },
        Row { kind: 2, ..bond },
        Row {
            issuer: 101,
            ..bond
        },
        Row {
            maturity: 2030_06_25,
            ..bond
        },
        Row {
            maturity: 2031_06_24,
            ..bond
        },
        Row {
            currency: 1,
            ..bond
        },
        Row {
            currency: 2,
            ..bond
        },
        Row { rating: 1, ..bond },
    ];
    let book = LentBook::of(participant(VALUED), &[bond], 2);
    let both = LentBook::of(participant(VALUED), &[bond, bond], 2);
    for other in others {
        let what = format_args!("{other:?}");
        orders.accepted(&book, &Order::Add(other), &[bond, other], what);
        orders.refused(&both, &Order::Add(other), (2, 0), what);
        orders.refused(&book, &Order::Take(other), (27, 0), what);
    }
    orders.accepted(
        &book,
        &Order::Add(bond),
        &[Row {
            value: 2_000,
            ..bond
        }],
        format_args!("equal"),
    );
}

#[test]
fn the_256th_and_the_257th_holding() {
    let mut orders = Orders::fixed("the 256th and the 257th holding");
    let all = rows(258);
    for count in [254, 255, 256] {
        for room in [count, count + 1, 256, 257, 300] {
            if room < count {
                continue;
            }
            let (head, book) = (participant(VALUED), &all[..count]);
            let lent = LentBook::of(head, book, room);
            let what = format_args!("{count} in {room} places");
            let joining = Order::Add(all[count]);
            match (count, room) {
                (256, _) => orders.refused(&lent, &joining, (3, 0), what),
                _ if room == count => orders.refused(&lent, &joining, (2, 0), what),
                _ => {
                    orders.accepted(&lent, &joining, &all[..=count], what);
                }
            }
            let nothing = Order::Add(Row {
                value: 0,
                ..all[count]
            });
            orders.refused(&lent, &nothing, (8, 0), what);
            let unknown = Order::Add(Row {
                side: 2,
                ..all[count]
            });
            orders.refused(&lent, &unknown, (4, 0), what);
            orders.refused(&lent, &Order::Take(all[count]), (27, 0), what);
            let mut more = book.to_vec();
            more[count - 1].value += 5;
            let equal = Row {
                value: 5,
                ..book[count - 1]
            };
            orders.accepted(&lent, &Order::Add(equal), &more, what);
            let less = [&book[..7], &book[8..]].concat();
            let after = orders.accepted(&lent, &Order::Take(book[7]), &less, what);
            let again = [&less[..], &[all[count]]].concat();
            orders.accepted(&after, &joining, &again, what);
            orders.accepted(&lent, &Order::Move(2025_01_31), book, what);
        }
    }
}

#[test]
fn counts_beyond_the_book_and_the_list() {
    let mut orders = Orders::fixed("counts beyond the book and the list");
    let all = rows(300);
    // The count times the bytes of a record may pass 64 bits.
    let beyond = [
        257,
        299,
        300,
        301,
        1 << 32,
        u64::MAX / 56,
        u64::MAX / 56 + 1,
        1 << 63,
        u64::MAX,
    ];
    for room in [0, 1, 255, 256, 257, 300] {
        let mut book = LentBook::of(participant(VALUED), &all[..room], room);
        for order in [Order::Add(BOND), Order::Take(BOND), Order::Move(2026_01_01)] {
            for count in beyond {
                book.count = count;
                let what = format_args!("{count} in {room} places");
                orders.refused(&book, &order, (3, 0), what);
                book.answer = 15;
                orders.refused(&book, &order, (3, 0), what);
                book.answer = 16;
            }
            for count in [room as u64 + 1, 256] {
                if (room as u64 + 1..=256).contains(&count) {
                    book.count = count;
                    let what = format_args!("{count} in {room} places");
                    orders.refused(&book, &order, (2, 0), what);
                }
            }
        }
    }
}

#[test]
fn lengths_of_list_totals_and_answer() {
    let mut orders = Orders::fixed("lengths of list, totals and answer");
    let all = rows(3);
    let sorts = [
        Order::Add(all[2]),
        Order::Add(BOND),
        Order::Take(all[1]),
        Order::Move(2026_01_01),
    ];
    for order in sorts {
        let full = LentBook::of(client(VALUED), &all, 5);
        for length in 0..=full.list.len() {
            let mut book = full.clone();
            book.list.truncate(length);
            let what = format_args!("{length} bytes of the list");
            let left = orders.compare(&book, &order, what);
            let places = length / Row::LENGTH;
            let wanted = match (places, order) {
                (0..3, _) => 2,
                (3, Order::Add(BOND)) => 2,
                _ => 0,
            };
            assert_eq!(left.number, wanted, "{what}");
        }
        for length in 0..=TOTALS + 17 {
            let mut book = full.clone();
            book.totals.resize(length, 0xEE);
            let what = format_args!("{length} bytes of totals");
            let left = orders.compare(&book, &order, what);
            assert_eq!(left.number, if length < TOTALS { 2 } else { 0 }, "{what}");
        }
        for length in 0..=ANSWER + 17 {
            let mut book = full.clone();
            book.answer = length;
            let what = format_args!("{length} bytes of the answer");
            let left = orders.compare(&book, &order, what);
            assert_eq!(left.number, if length < ANSWER { 2 } else { 0 }, "{what}");
        }
    }
}

#[test]
fn only_the_first_of_equal_holdings_counts() {
    let mut orders = Orders::fixed("equal holdings of a lent book");
    let other = Row { side: 1, ..BOND };
    for first in [1, 10, 1_000, MOST - 1, MOST] {
        for second in [1, 1_000, MOST] {
            let rows = [other, of(first), other, of(second), of(7)];
            let book = LentBook::of(participant(VALUED), &rows, 6);
            let what = format_args!("{first}, then {second}");
            let with = |value| {
                let mut rows = rows;
                rows[1].value = value;
                rows
            };
            if first < MOST {
                orders.accepted(&book, &Order::Add(of(1)), &with(first + 1), what);
                orders.accepted(&book, &Order::Add(of(MOST - first)), &with(MOST), what);
            }
            orders.refused(&book, &Order::Add(of(MOST - first + 1)), (8, 0), what);
            if first > 1 {
                orders.accepted(&book, &Order::Take(of(1)), &with(first - 1), what);
            }
            // The second holds enough, and is not asked.
            orders.refused(&book, &Order::Take(of(first + 1)), (27, 0), what);
            let left = [other, other, of(second), of(7)];
            let book = orders.accepted(&book, &Order::Take(of(first)), &left, what);
            let left = [other, other, of(7)];
            let book = orders.accepted(&book, &Order::Take(of(second)), &left, what);
            let left = [other, other];
            let book = orders.accepted(&book, &Order::Take(of(7)), &left, what);
            let left = [other];
            let book = orders.accepted(&book, &Order::Take(other), &left, what);
            let left = [other, of(first)];
            orders.accepted(&book, &Order::Add(of(first)), &left, what);
        }
    }
}

#[test]
fn each_place_of_a_full_book() {
    let mut orders = Orders::fixed("each place of a full book");
    let all = rows(256);
    let book = LentBook::of(participant(VALUED), &all, 256);
    for place in 0..256 {
        let what = format_args!("place {place}");
        let mut changed = all.clone();
        changed[place].value += 100;
        let trade = Row {
            value: 100,
            ..all[place]
        };
        orders.accepted(&book, &Order::Add(trade), &changed, what);
        let left = [&all[..place], &all[place + 1..]].concat();
        orders.accepted(&book, &Order::Take(all[place]), &left, what);
        let mut damaged = book.clone();
        damaged.change(place, |row| row.kind = 3);
        orders.refused(&damaged, &Order::Take(all[0]), (5, place as u64), what);
        let mut short = book.clone();
        short.change(place, |row| row.value += 1);
        orders.refused(&short, &Order::Take(all[0]), (27, 0), what);
    }
}

#[test]
fn a_small_stack_is_enough() {
    let all = rows(256);
    let mut book = LentBook::of(participant(VALUED), &all, 256);
    let calls = move || {
        let (list, totals, answer) = (&mut book.list, &mut book.totals, &mut [0; ANSWER]);
        let trade = Row {
            value: 1,
            ..all[255]
        };
        [
            raw::margin_add(list, 256, totals, VALUED, 0, &trade, answer),
            raw::margin_take(list, 256, totals, VALUED, 0, &trade, answer),
            raw::margin_take(list, 256, totals, VALUED, 0, &all[0], answer),
            raw::margin_move(list, 255, totals, VALUED, 0, 2025_01_02, answer),
        ]
    };
    let small = thread::Builder::new().stack_size(STACK);
    let numbers = small.spawn(calls).expect("a thread").join();
    assert_eq!(numbers.expect("numbers"), [0; 4]);
}

#[test]
fn the_greatest_totals() {
    let mut orders = Orders::new("the greatest totals", 0x0E21);
    // Strips of corporations of 20 years and more have the highest rate.
    let rows: Vec<Row> = (0..256)
        .map(|at| Row {
            kind: 2,
            issuer: 100 + at,
            maturity: 2060_01_01,
            value: MOST,
            rating: 1,
            ..BOND
        })
        .collect();
    let book = LentBook::of(participant(VALUED), &rows, 256);
    let what = format_args!("256 holdings of the highest value");
    assert_eq!(book.totals[32..], (256 * 43_800 * MOST).to_le_bytes());
    orders.refused(
        &book,
        &Order::Add(Row {
            value: 1,
            ..rows[255]
        }),
        (8, 0),
        what,
    );
    orders.accepted(&book, &Order::Take(rows[255]), &rows[..255], what);
    orders.accepted(&book, &Order::Move(2040_01_02), &rows, what);
    // Totals that add up to the same, or to nothing, in 64 bits.
    for (one, other) in [(0, 4), (3, 4), (1, 2)] {
        let mut off = book.clone();
        let parts = off.totals.as_chunks_mut::<8>().0;
        parts[one] = u64::MAX.to_le_bytes();
        let total = u64::from_le_bytes(parts[other]);
        parts[other] = total.wrapping_add(1).to_le_bytes();
        orders.refused(
            &off,
            &Order::Move(2040_01_02),
            (27, 0),
            format_args!("{one}, {other}"),
        );
    }
    for shape in [ANY, DOMESTIC] {
        let rows = holdings(&mut orders.random, &shape, VALUED, 256);
        let book = LentBook::of(participant(VALUED), &rows, 256);
        orders.accepted(
            &book,
            &Order::Move(2025_01_02),
            &rows,
            format_args!("{}", shape.name),
        );
    }
}
