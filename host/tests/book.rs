//! Books and proposals of named values: they are judged as their numbers are.

use margin_calculator::samples::{Random, SHAPES, best_sheet, book};
use margin_calculator::texts::issuer_text;
use margin_calculator::{NOT_RATED, Row, Sheet};
use margin_host::{
    Accepted, AccountKind, Book, Columns, Currency, Date, Figures, Head, Holding, Issuer, Kind,
    Lei, Line, Proposal, Rating, Refusal, Side, check, check_columns,
};

const VALUED: Date = Date::new(2025, 1, 1).expect("a day");

const CORPORATION: Lei = Lei::new("5493001KJTIIGC8Y1R12").expect("an LEI");

/// A Canada coupon in CAD.
const COUPON: Holding = Holding {
    side: Side::Long,
    kind: Kind::Coupon,
    issuer: Issuer::Canada,
    maturity: Date::new(2030, 6, 24).expect("a day"),
    value: 1_000_000,
    currency: Currency::Cad,
    rating: None,
};

/// The book and the proposal of a sheet whose account, sides, kinds, issuers, dates, currencies and ratings are
/// known.
fn named(sheet: &Sheet) -> (Book, Proposal) {
    let day = |number| Date::from_number(number).expect("a day");
    let holding = |number| {
        let row = sheet.row(number);
        Holding {
            side: Side::ALL[row.side as usize],
            kind: Kind::ALL[row.kind as usize],
            issuer: issuer_text(row.issuer).parse().expect("an issuer"),
            maturity: day(row.maturity),
            value: row.value,
            currency: Currency::ALL[row.currency as usize],
            rating: Rating::from_number(row.rating),
        }
    };
    let holdings: Vec<Holding> = (0..sheet.side.len()).map(holding).collect();
    let legs = sheet.long.iter().zip(&sheet.short);
    let lines: Vec<Line> = legs
        .zip(&sheet.amount)
        .map(|((&long, &short), &amount)| Line {
            long,
            short,
            amount,
        })
        .collect();
    let account = AccountKind::ALL[sheet.head.letter as usize];
    let book = Book::new(day(sheet.head.date), account, holdings);
    (book, Proposal::new(sheet.price.clone(), lines))
}

/// The check on columns, with lists of the right length.
fn by_columns(sheet: &Sheet) -> Result<Accepted, Refusal> {
    let count = sheet.side.len();
    let (mut remainder, mut ranking) = (vec![0; count], vec![0; count]);
    let figures = check_columns(sheet.head, &sheet.columns, &mut remainder, &mut ranking)?;
    Ok(Accepted {
        figures,
        remainder,
        ranking,
    })
}

#[test]
fn the_columns_are_the_numbers() {
    for side in Side::ALL {
        for kind in Kind::ALL {
            for (number, issuer) in (0..).zip(Issuer::GOVERNMENTS) {
                for currency in Currency::ALL {
                    let holding = Holding {
                        side,
                        kind,
                        issuer,
                        currency,
                        ..COUPON
                    };
                    let row = Row {
                        side: side.number(),
                        kind: kind.number(),
                        issuer: number,
                        maturity: 2030_06_24,
                        value: 1_000_000,
                        currency: currency.number(),
                        rating: NOT_RATED,
                    };
                    for (letter, account) in (0..).zip(AccountKind::ALL) {
                        let book = Book::new(VALUED, account, [holding]);
                        let (date, proposal) = (2025_01_01, Proposal::new([5], []));
                        let sheet = Sheet::of_rows(Head { date, letter }, &[row], 5);
                        assert_eq!(Head::of(&book), sheet.head);
                        assert_eq!(Columns::of(&book, &proposal), sheet.columns);
                    }
                }
            }
        }
    }
}

#[test]
fn random_books_by_name_and_by_number() {
    let mut random = Random::new(0x0D01);
    for shape in &SHAPES {
        for size in [0, 1, 2, 9, 40, 256] {
            let mut sheet = best_sheet(&book(&mut random, shape, size)).renumbered();
            for change in [0, 1] {
                if size > 0 {
                    sheet.price[random.place(size)] ^= change;
                }
                let (book, proposal) = named(&sheet);
                let columns = Columns::of(&book, &proposal);
                assert_eq!(Head::of(&book), sheet.head, "{}", shape.name);
                assert_eq!(columns, sheet.columns, "{}", shape.name);
                assert_eq!(
                    check(&book, &proposal),
                    by_columns(&sheet),
                    "{}",
                    shape.name
                );
            }
        }
    }
}

#[test]
fn refusals_that_names_leave_possible() {
    let short = Holding {
        side: Side::Short,
        ..COUPON
    };
    let line = Line {
        long: 0,
        short: 1,
        amount: 1_000_000,
    };
    let refusal = |book: &[Holding], prices: &[u64], lines: &[Line]| {
        let book = Book::new(VALUED, AccountKind::Participant, book);
        check(&book, &Proposal::new(prices, lines)).expect_err("a refusal")
    };
    let pair = [COUPON, short];
    assert_eq!(refusal(&pair, &[8_760], &[line]), Refusal::ColumnsDiffer);
    let many = refusal(&[COUPON; 257], &[0; 257], &[]);
    assert_eq!(many, Refusal::TooManyHoldings);
    for maturity in [Date::MIN, VALUED, Date::MAX] {
        let matured = Holding { maturity, ..COUPON };
        let matured = refusal(&[COUPON, matured], &[0, 0], &[]);
        assert_eq!(matured, Refusal::MaturityOutOfRange { holding: 1 });
    }
    let value = Holding {
        value: 100_000_000_001,
        ..COUPON
    };
    let value = refusal(&[value], &[0], &[]);
    assert_eq!(value, Refusal::ValueOutOfRange { holding: 0 });
    let price = refusal(&pair, &[0, 43_801], &[]);
    assert_eq!(price, Refusal::PriceTooHigh { holding: 1 });
    let lines = refusal(&pair, &[8_760, 0], &[line; 513]);
    assert_eq!(lines, Refusal::TooManyLines);
    let far = Line {
        short: u64::MAX,
        ..line
    };
    let far = refusal(&pair, &[8_760, 0], &[line, far]);
    assert_eq!(far, Refusal::NotInBook { line: 1 });
    let uncovered = refusal(&pair, &[8_759, 0], &[line]);
    assert_eq!(uncovered, Refusal::PairNotCovered { long: 0, short: 1 });
    let dollars = Holding {
        currency: Currency::Usd,
        ..short
    };
    let apart = refusal(&[COUPON, dollars], &[8_760, 0], &[line]);
    assert_eq!(apart, Refusal::PairNotAllowed { line: 0 });
    let rated = Holding {
        rating: Some(Rating::SingleA),
        ..short
    };
    let government = refusal(&[COUPON, rated], &[8_760, 0], &[line]);
    assert_eq!(government, Refusal::RatingInvalid { holding: 1 });
    let unrated = Holding {
        issuer: Issuer::Corporation(CORPORATION),
        ..short
    };
    let corporation = refusal(&[COUPON, unrated], &[8_760, 0], &[line]);
    assert_eq!(corporation, Refusal::RatingInvalid { holding: 1 });
}

#[test]
fn a_bond_and_its_strip_in_a_foreign_currency() {
    // After three years a bond asks 2 and a strip 3 per cent, so the pair asks 1, of a government of Group I.
    let line = Line {
        long: 0,
        short: 1,
        amount: 1_000_000,
    };
    let proposal = Proposal::new([0, 5_840], [line]);
    for currency in [Currency::Usd, Currency::Gbp] {
        for issuer in Issuer::GOVERNMENTS {
            let strip = Holding {
                issuer,
                currency,
                ..COUPON
            };
            let bond = Holding {
                side: Side::Short,
                kind: Kind::Bond,
                ..strip
            };
            let government =
                [Issuer::Canada, Issuer::UnitedStates, Issuer::UnitedKingdom].contains(&issuer);
            for account in AccountKind::ALL {
                let cents = check(&Book::new(VALUED, account, [strip, bond]), &proposal);
                let cents = cents.map(|accepted| accepted.figures.cents);
                let wanted = match account {
                    AccountKind::Participant if government => Ok(10_000),
                    _ => Err(Refusal::PairNotAllowed { line: 0 }),
                };
                assert_eq!(cents, wanted, "{issuer} in {currency}, {account}");
            }
        }
    }
}

#[test]
fn a_bond_and_its_strip_of_a_corporation() {
    // After three years a bond asks 7 and a strip 10.5 per cent, which is what the pair asks.
    let line = Line {
        long: 0,
        short: 1,
        amount: 1_000_000,
    };
    let proposal = Proposal::new([0, 10_220], [line]);
    let other = Lei::new("7ZW8QJWVPR4P1J1KQY45").expect("an LEI");
    for lei in [CORPORATION, other] {
        for strip_rating in Rating::ALL {
            for bond_rating in Rating::ALL {
                let strip = Holding {
                    issuer: Issuer::Corporation(CORPORATION),
                    rating: Some(strip_rating),
                    ..COUPON
                };
                let bond = Holding {
                    side: Side::Short,
                    kind: Kind::Bond,
                    issuer: Issuer::Corporation(lei),
                    rating: Some(bond_rating),
                    ..strip
                };
                for account in AccountKind::ALL {
                    let cents = check(&Book::new(VALUED, account, [strip, bond]), &proposal);
                    let cents = cents.map(|accepted| accepted.figures.cents);
                    let wanted = match (account, lei == CORPORATION, bond_rating) {
                        (AccountKind::Participant, true, Rating::SingleA) => Ok(105_000),
                        _ => Err(Refusal::PairNotAllowed { line: 0 }),
                    };
                    assert_eq!(
                        cents, wanted,
                        "{lei}, {strip_rating}, {bond_rating}, {account}"
                    );
                }
            }
        }
    }
}

#[test]
fn corporations_are_numbered_by_first_appearance() {
    let texts = [105, 7, 103, 105, 300, 0, 103].map(issuer_text);
    let holdings = texts.each_ref().map(|text| Holding {
        issuer: text.parse().expect("an issuer"),
        ..COUPON
    });
    let book = Book::new(VALUED, AccountKind::Participant, holdings);
    let columns = Columns::of(&book, &Proposal::default());
    assert_eq!(columns.issuer, [100, 7, 101, 100, 102, 0, 101]);
    let leis: Vec<String> = book.corporations().iter().map(Lei::to_string).collect();
    assert_eq!(leis, [&texts[0], &texts[2], &texts[4]].map(String::as_str));
}

#[test]
fn a_book_is_made_from_holdings() {
    let holdings = Side::ALL.map(|side| Holding { side, ..COUPON });
    let book = Book::new(VALUED, AccountKind::Participant, holdings);
    let same = Book::new(VALUED, AccountKind::Participant, holdings.to_vec());
    assert_eq!(book, same);
    let line = Line {
        long: 0,
        short: 1,
        amount: 1_000_000,
    };
    let accepted = check(&book, &Proposal::new([4_380, 4_380], [line]));
    let nothing = Accepted {
        figures: Figures::default(),
        remainder: vec![0, 0],
        ranking: vec![0, 1],
    };
    assert_eq!(accepted, Ok(nothing));
}

#[test]
fn columns_of_any_sort_are_checked_alike() {
    let Sheet { head, columns } = best_sheet(&book(&mut Random::new(0x0D02), &SHAPES[0], 30));
    let (mut remainder, mut ranking) = ([0; 30], [0; 30]);
    let owned = check_columns(head, &columns, &mut remainder, &mut ranking);
    let slices = columns.each_ref().map(Vec::as_slice);
    let lent = check_columns(head, &slices, &mut remainder, &mut ranking);
    let references = check_columns(head, &columns.each_ref(), &mut remainder, &mut ranking);
    assert!(owned.is_ok());
    assert_eq!((lent, references), (owned, owned));
}

#[test]
fn the_order_in_which_columns_are_lent() {
    let places = Columns::from_array([0, 1, 2, 3, 4, 5, 6, 7, 8, 9, 10]);
    let named = Columns {
        side: 0,
        kind: 1,
        issuer: 2,
        maturity: 3,
        value: 4,
        price: 5,
        currency: 6,
        rating: 7,
        long: 8,
        short: 9,
        amount: 10,
    };
    assert_eq!(places, named);
    assert_eq!(places.into_array(), [0, 1, 2, 3, 4, 5, 6, 7, 8, 9, 10]);
}
