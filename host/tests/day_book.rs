//! The wrapper's day book: typed trades against the calculator's ledger, its corporations, and its refusals.

mod support;

use margin_calculator::calendar::days_after;
use margin_calculator::dealing::{Dealer, Style};
use margin_calculator::samples::{
    ANY, CORPORATE, CORPORATIONS, Random, SHAPES, Shape, holdings, valuation_date,
};
use margin_calculator::texts::issuer_text;
use margin_calculator::{
    CLIENT, Ledger, NOT_RATED, Order, PARTICIPANT, Row, VALUED, participant, totals_of,
};
use margin_host::{
    AccountKind, Book, Currency, Date, DayBook, Head, Holding, Issuer, Kind, Proposal, Rating,
    Refusal, Side, check,
};

fn date(number: u64) -> Date {
    Date::from_number(number).expect("a day")
}

/// The holding of a row whose numbers the wrapper knows; a corporation has the LEI of its number.
fn holding(row: &Row) -> Holding {
    Holding {
        side: Side::from_number(row.side).expect("a side"),
        kind: Kind::from_number(row.kind).expect("a kind"),
        issuer: issuer_text(row.issuer).parse().expect("an issuer"),
        maturity: date(row.maturity),
        value: row.value,
        currency: Currency::from_number(row.currency).expect("a currency"),
        rating: Rating::from_number(row.rating),
    }
}

fn typed(rows: &[Row]) -> Vec<Holding> {
    rows.iter().map(holding).collect()
}

fn book(head: Head, rows: &[Row]) -> Book {
    let account = AccountKind::from_number(head.letter).expect("an account");
    Book::new(date(head.date), account, typed(rows))
}

/// What a wrapper can say of a trade: a rating that does not fit, or a maturity that has passed.
fn fault(random: &mut Random, row: &mut Row) {
    match random.below(2) {
        0 => {
            row.rating = if row.rating == NOT_RATED {
                0
            } else {
                NOT_RATED
            }
        }
        _ => row.maturity = random.pick(&[1900_01_01, 2299_12_31]),
    }
}

const BOND: Row = Row {
    side: 0,
    kind: 0,
    issuer: 7,
    maturity: 2030_06_24,
    value: 1_000,
    currency: 0,
    rating: NOT_RATED,
};

#[test]
fn histories_of_typed_trades() {
    let mut random = Random::new(0x0E51);
    let mut seen = [0; 28];
    let many = Shape {
        issuers: &CORPORATIONS,
        ..CORPORATE
    };
    for round in 0..60 {
        let shape = [ANY, many, CORPORATE, random.pick(&SHAPES)][round % 4];
        let head = Head {
            date: valuation_date(&mut random),
            letter: random.pick(&[PARTICIPANT, CLIENT]),
        };
        let style = Style {
            shape,
            different: 1 + random.place(30),
            whole: 4,
            moves: 15,
            fault,
        };
        let mut ledger = Ledger::new(head, 256);
        let mut day_book = DayBook::new(date(head.date), AccountKind::ALL[head.letter as usize]);
        let mut dealer = Dealer::new(&mut random, style, &ledger);
        for turn in 0..120 {
            let order = dealer.order(&mut random, &ledger);
            let done = match &order {
                Order::Add(trade) => day_book.add(&holding(trade)),
                Order::Take(trade) => day_book.take(&holding(trade)),
                Order::Move(to) => match Date::from_number(*to) {
                    Some(to) => day_book.move_to(to),
                    None => continue,
                },
            };
            let wanted = ledger.order(&order);
            assert_eq!(
                done,
                wanted.map(|_| ()),
                "round {round}, turn {turn}: {order:?}"
            );
            seen[done.map_or_else(|refusal| refusal.number(), |()| 0) as usize] += 1;
            assert_eq!(day_book.holdings(), typed(&ledger.holdings()), "{order:?}");
            assert_eq!(day_book.totals(), ledger.totals(), "{order:?}");
            assert_eq!(day_book.date(), date(ledger.head().date), "{order:?}");
        }
        let as_book = day_book.as_book();
        assert_eq!(as_book, book(ledger.head(), &ledger.holdings()));
        // The same day book comes from its parts, and from its book alone.
        let again = DayBook::from_parts(&as_book, day_book.totals()).expect("its own totals");
        let figured = DayBook::of(&as_book).expect("a book without fault");
        for other in [again, figured] {
            assert_eq!(
                (other.as_book(), other.totals()),
                (as_book.clone(), day_book.totals())
            );
        }
    }
    for number in [0, 7, 8, 25, 27] {
        assert!(seen[number] >= 20, "{number}: {seen:?}");
    }
}

#[test]
fn what_is_not_paired_asks_the_sum_of_the_totals() {
    let mut random = Random::new(0x0E52);
    let shape = Shape { sides: &[1], ..ANY };
    for _ in 0..40 {
        let head = participant(valuation_date(&mut random));
        let rows = holdings(&mut random, &shape, head.date, 30);
        let day_book = DayBook::of(&book(head, &rows)).expect("a book without fault");
        assert_eq!(day_book.totals(), totals_of(head, &rows));
        let accepted =
            check(&day_book.as_book(), &Proposal::new([0; 30], [])).expect("shorts are not paired");
        assert_eq!(
            accepted.figures.units,
            day_book.totals().iter().sum::<u64>()
        );
    }
}

/// Bonds of 256 corporations, and of one more.
fn corporate(number: u64) -> Holding {
    let lei = margin_calculator::with_check_digits(&format!("{number:018}"));
    Holding {
        issuer: lei.parse().expect("an LEI"),
        rating: Some(Rating::SingleA),
        ..holding(&BOND)
    }
}

#[test]
fn a_book_of_256_corporations() {
    let mut day_book = DayBook::new(date(VALUED), AccountKind::Participant);
    let all: Vec<Holding> = (0..256).map(corporate).collect();
    for bond in &all {
        assert_eq!(day_book.add(bond), Ok(()));
    }
    assert_eq!(day_book.holdings(), all);
    // Another has no number left, and is judged all the same.
    for number in [256, 257, 1_000] {
        let another = corporate(number);
        let short = Holding {
            side: Side::Short,
            ..another
        };
        for trade in [another, short] {
            assert_eq!(day_book.add(&trade), Err(Refusal::TooManyHoldings));
            assert_eq!(day_book.take(&trade), Err(Refusal::TakenOutOfRange));
            let refused = Err(Refusal::ValueOutOfRange { holding: 0 });
            assert_eq!(day_book.add(&Holding { value: 0, ..trade }), refused);
            let matured = Holding {
                maturity: date(VALUED),
                ..trade
            };
            let refused = Err(Refusal::MaturityOutOfRange { holding: 0 });
            assert_eq!(day_book.add(&matured), refused);
            assert_eq!(day_book.take(&matured), refused);
            let refused = Err(Refusal::RatingInvalid { holding: 0 });
            assert_eq!(
                day_book.add(&Holding {
                    rating: None,
                    ..trade
                }),
                refused
            );
        }
    }
    assert_eq!(day_book.holdings(), all);
    // One that leaves gives its number to another.
    assert_eq!(day_book.take(&all[100]), Ok(()));
    assert_eq!(day_book.add(&corporate(256)), Ok(()));
    let left = [&all[..100], &all[101..], &[corporate(256)]].concat();
    assert_eq!(day_book.holdings(), left);
    assert_eq!(day_book.add(&all[100]), Err(Refusal::TooManyHoldings));
    assert_eq!(day_book.take(&all[100]), Err(Refusal::TakenOutOfRange));
}

#[test]
fn more_corporations_in_a_day_than_there_are_numbers() {
    let mut day_book = DayBook::new(date(VALUED), AccountKind::Client);
    let kept = corporate(5_000);
    assert_eq!(day_book.add(&kept), Ok(()));
    for number in 0..1_000 {
        let passing = corporate(number);
        assert_eq!(day_book.add(&passing), Ok(()));
        assert_eq!(day_book.holdings(), [kept, passing]);
        assert_eq!(day_book.take(&passing), Ok(()));
    }
    assert_eq!(day_book.holdings(), [kept]);
}

#[test]
fn a_book_with_holdings_alike() {
    let bond = holding(&BOND);
    let of = |value| Holding { value, ..bond };
    let book = Book::new(date(VALUED), AccountKind::Client, [of(10), of(20)]);
    let mut day_book = DayBook::of(&book).expect("a book without fault");
    assert_eq!(day_book.totals(), [0, 0, 30 * 5_840, 0, 0]);
    assert_eq!(day_book.take(&of(11)), Err(Refusal::TakenOutOfRange));
    assert_eq!(day_book.add(&of(5)), Ok(()));
    assert_eq!(day_book.holdings(), [of(15), of(20)]);
    assert_eq!(day_book.take(&of(15)), Ok(()));
    assert_eq!(day_book.take(&of(15)), Ok(()));
    assert_eq!(day_book.holdings(), [of(5)]);
}

#[test]
fn every_refusal_of_a_book() {
    let bond = holding(&BOND);
    let with = |place: usize, damaged: Holding| {
        let mut holdings = vec![bond; 4];
        holdings[place] = damaged;
        let book = Book::new(date(VALUED), AccountKind::Client, holdings);
        let given = DayBook::from_parts(&book, [0; 5]).err();
        assert_eq!(DayBook::of(&book).err(), given);
        given
    };
    for place in [0, 2, 3] {
        let number = place as u64;
        let at = |refusal: fn(u64) -> Refusal| Some(refusal(number));
        for maturity in [VALUED, 2024_12_31, 2125_01_02] {
            let maturity = date(maturity);
            let refused = with(place, Holding { maturity, ..bond });
            assert_eq!(
                refused,
                at(|holding| Refusal::MaturityOutOfRange { holding })
            );
        }
        for value in [0, 100_000_000_001, u64::MAX] {
            // The value is asked for before the rating, unlike in a trade.
            for rating in [None, Some(Rating::Lower)] {
                let refused = with(
                    place,
                    Holding {
                        value,
                        rating,
                        ..bond
                    },
                );
                assert_eq!(refused, at(|holding| Refusal::ValueOutOfRange { holding }));
            }
        }
        let rating = Some(Rating::Lower);
        let refused = with(place, Holding { rating, ..bond });
        assert_eq!(refused, at(|holding| Refusal::RatingInvalid { holding }));
    }
    let of = |count| Book::new(date(VALUED), AccountKind::Client, vec![bond; count]);
    assert_eq!(DayBook::of(&of(257)).err(), Some(Refusal::TooManyHoldings));
    let many: Vec<Holding> = (0..300).map(corporate).collect();
    let many = Book::new(date(VALUED), AccountKind::Client, many);
    assert_eq!(DayBook::of(&many).err(), Some(Refusal::TooManyHoldings));
    let full = DayBook::of(&of(256)).expect("256 holdings").totals();
    assert_eq!(full, [0, 0, 256 * 1_000 * 5_840, 0, 0]);
    for period in 0..5 {
        for off in [1, u64::MAX] {
            let mut totals = full;
            totals[period] = totals[period].wrapping_add(off);
            let refused = DayBook::from_parts(&of(256), totals).err();
            assert_eq!(refused, Some(Refusal::StoredTotalsDiffer));
        }
    }
}

#[test]
fn every_refusal_of_an_order() {
    let bond = holding(&BOND);
    let of = |value| Holding { value, ..bond };
    let mut day_book = DayBook::new(date(VALUED), AccountKind::Participant);
    assert_eq!(day_book.add(&bond), Ok(()));
    let same = day_book.as_book();
    let matured = Holding {
        maturity: date(VALUED),
        ..bond
    };
    let rated = Holding {
        rating: Some(Rating::SingleA),
        ..bond
    };
    let out_of_term = Err(Refusal::MaturityOutOfRange { holding: 0 });
    let wrong_rating = Err(Refusal::RatingInvalid { holding: 0 });
    let out_of_range = Err(Refusal::ValueOutOfRange { holding: 0 });
    assert_eq!(day_book.add(&matured), out_of_term);
    assert_eq!(day_book.take(&matured), out_of_term);
    assert_eq!(day_book.add(&rated), wrong_rating);
    assert_eq!(day_book.take(&rated), wrong_rating);
    assert_eq!(day_book.add(&Holding { value: 0, ..rated }), wrong_rating);
    for value in [0, 100_000_000_000, 100_000_000_001, u64::MAX] {
        assert_eq!(day_book.add(&of(value)), out_of_range);
    }
    for value in [0, 1_001, u64::MAX] {
        assert_eq!(day_book.take(&of(value)), Err(Refusal::TakenOutOfRange));
    }
    let other = Holding {
        issuer: Issuer::Quebec,
        ..bond
    };
    assert_eq!(day_book.take(&other), Err(Refusal::TakenOutOfRange));
    for to in [VALUED, 2024_12_31, 1900_01_01] {
        assert_eq!(day_book.move_to(date(to)), Err(Refusal::DateNotLater));
    }
    for to in [BOND.maturity, days_after(BOND.maturity, 1), 2299_12_31] {
        assert_eq!(day_book.move_to(date(to)), out_of_term);
    }
    assert_eq!(day_book.as_book(), same);
    assert_eq!(day_book.totals(), [0, 0, 5_840_000, 0, 0]);
    assert_eq!(day_book.account(), AccountKind::Participant);
}
