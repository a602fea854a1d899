//! The wrapper on files: what it reads, what it refuses, and reading and checking in one call.

use margin_calculator::cases::all;
use margin_calculator::samples::{Random, SHAPES, best_sheet, book};
use margin_calculator::texts::{
    PRINTED, dated, head, holding, issuer_text, joined, line, of_width, rated, text_of, valued,
};
use margin_calculator::{self as calculator, FIELDS, Sheet, print};
use margin_host::{
    Accepted, AccountKind, Book, Columns, Currency, Date, Figures, Holding, Issuer, Kind, Lei,
    Line, Proposal, Rating, Refusal, Side, check, check_file, read, read_columns, read_leis,
};

const VALUED: Date = Date::new(2025, 1, 1).expect("a day");
const SHORTER: Date = Date::new(2038, 9, 10).expect("a day");
const LONGER: Date = Date::new(2046, 11, 27).expect("a day");

/// The printed file with another record at one place.
fn with(at: usize, record: &str) -> Vec<u8> {
    let mut records = PRINTED;
    records[at] = record;
    joined(&records)
}

/// What a file holds, as a sheet.
fn read_sheet(text: &[u8]) -> Result<Sheet, Refusal> {
    read_columns(text).map(|(head, columns)| Sheet { head, columns })
}

#[test]
fn the_printed_file() {
    let (head, sheet) = read_columns(&joined(&PRINTED)).expect("it is read");
    assert_eq!((head.date, head.letter), (2025_01_01, 0));
    assert_eq!(sheet.side, [0, 1, 1]);
    assert_eq!(sheet.kind, [1, 0, 2]);
    assert_eq!(sheet.issuer, [0, 0, 7]);
    assert_eq!(sheet.maturity, [2030_06_24; 3]);
    assert_eq!(sheet.value, [1_000_000, 600_000, 300_000]);
    assert_eq!(sheet.price, [0, 5_840, 6_570]);
    assert_eq!(sheet.currency, [0; 3]);
    assert_eq!(sheet.rating, [2; 3]);
    assert_eq!((sheet.long, sheet.short), (vec![0, 0], vec![1, 2]));
    assert_eq!(sheet.amount, [600_000, 300_000]);
    let wanted = Accepted {
        figures: Figures {
            units: 3_285_000_000,
            cents: 22_500,
        },
        remainder: vec![100_000, 0, 0],
        ranking: vec![0, 1, 2],
    };
    assert_eq!(check_file(&joined(&PRINTED)), Ok(wanted));
}

#[test]
fn the_printed_file_by_its_names() {
    let holding = |side, kind, issuer, value| Holding {
        side,
        kind,
        issuer,
        maturity: Date::new(2030, 6, 24).expect("a day"),
        value,
        currency: Currency::Cad,
        rating: None,
    };
    let holdings = [
        holding(Side::Long, Kind::Coupon, Issuer::Canada, 1_000_000),
        holding(Side::Short, Kind::Bond, Issuer::Canada, 600_000),
        holding(Side::Short, Kind::Residual, Issuer::Ontario, 300_000),
    ];
    let book = Book::new(VALUED, AccountKind::Participant, holdings);
    let line = |short, amount| Line {
        long: 0,
        short,
        amount,
    };
    let proposal = Proposal::new([0, 5_840, 6_570], [line(1, 600_000), line(2, 300_000)]);
    let text = joined(&PRINTED);
    assert_eq!(check(&book, &proposal), check_file(&text));
    assert_eq!(read(&text), Ok((book, proposal)));
}

#[test]
fn both_paragraphs_by_their_names() {
    let coupon = Holding {
        side: Side::Long,
        kind: Kind::Coupon,
        issuer: Issuer::UnitedStates,
        maturity: LONGER,
        value: 1_000,
        currency: Currency::Usd,
        rating: None,
    };
    let bond = Holding {
        side: Side::Short,
        kind: Kind::Bond,
        maturity: SHORTER,
        ..coupon
    };
    let sterling = [coupon, bond].map(|holding| Holding {
        issuer: Issuer::UnitedKingdom,
        currency: Currency::Gbp,
        ..holding
    });
    let residuals = Side::ALL.map(|side| Holding {
        side,
        kind: Kind::Residual,
        issuer: Issuer::Quebec,
        currency: Currency::Cad,
        ..coupon
    });
    let holdings = [[coupon, bond], sterling, residuals].concat();
    let book = Book::new(VALUED, AccountKind::Participant, holdings);
    let line = |long| Line {
        long,
        short: long + 1,
        amount: 1_000,
    };
    let proposal = Proposal::new([11_680, 0, 11_680, 0, 43_800, 0], [0, 2, 4].map(line));
    let text = "D,2025-01-01,P,,,,,,\r\n\
                H,L,C,US,2046-11-27,1000,11680,USD,\r\n\
                H,S,B,US,2038-09-10,1000,0,USD,\r\n\
                H,L,C,GB,2046-11-27,1000,11680,GBP,\r\n\
                H,S,B,GB,2038-09-10,1000,0,GBP,\r\n\
                H,L,R,QC,2046-11-27,1000,43800,CAD,\r\n\
                H,S,R,QC,2046-11-27,1000,0,CAD,\r\n\
                P,0,1,1000,,,,,\r\n\
                P,2,3,1000,,,,,\r\n\
                P,4,5,1000,,,,,\r\n";
    assert_eq!(check(&book, &proposal), check_file(text.as_bytes()));
    assert_eq!(read(text.as_bytes()), Ok((book, proposal)));
    // Three times 4 per cent less 4 per cent, twice, of 1,000 cents.
    let cents = check_file(text.as_bytes()).map(|accepted| accepted.figures.cents);
    assert_eq!(cents, Ok(160));
    let dollars = text.replace("GBP,\r\nH,L,R", "USD,\r\nH,L,R");
    let refusal = Err(Refusal::PairNotAllowed { line: 1 });
    assert_eq!(check_file(dollars.as_bytes()), refusal);
}

#[test]
fn the_same_holdings_in_both_accounts() {
    // Ten per cent for the bond and thirty for the strip, but 20 for the two where they may be paired.
    let text = "D,2025-01-01,C,,,,,,\r\n\
                H,L,B,5493001KJTIIGC8Y1R12,2046-11-27,1000,0,CAD,Y\r\n\
                H,S,R,5493001KJTIIGC8Y1R12,2046-11-27,1000,0,CAD,N\r\n";
    let (mut book, mut proposal) = read(text.as_bytes()).expect("it is read");
    assert_eq!(book.account, AccountKind::Client);
    let cents = |book: &Book, proposal: &Proposal| {
        check(book, proposal).map(|accepted| accepted.figures.cents)
    };
    assert_eq!(cents(&book, &proposal), Ok(400));
    assert_eq!(check(&book, &proposal), check_file(text.as_bytes()));
    book.account = AccountKind::Participant;
    let uncovered = Refusal::PairNotCovered { long: 0, short: 1 };
    assert_eq!(cents(&book, &proposal), Err(uncovered));
    let participants = text.replace(",C,,", ",P,,");
    assert_eq!(check_file(participants.as_bytes()), Err(uncovered));
    proposal.prices[1] = 29_200;
    proposal.lines = vec![Line {
        long: 0,
        short: 1,
        amount: 1_000,
    }];
    assert_eq!(cents(&book, &proposal), Ok(200));
    book.account = AccountKind::Client;
    let refusal = Refusal::PairNotAllowed { line: 0 };
    assert_eq!(cents(&book, &proposal), Err(refusal));
}

#[test]
fn an_account_that_is_none() {
    let refusal = Err(Refusal::FieldNotOfItsSort { record: 0 });
    for account in ["", "p", "PC", "0"] {
        let text = with(0, &head("2025-01-01", account));
        assert_eq!(read(&text), refusal, "{account:?}");
    }
}

#[test]
fn corporations_by_their_leis() {
    let [first, second] = ["5493001KJTIIGC8Y1R12", "7ZW8QJWVPR4P1J1KQY45"]
        .map(|text| Lei::new(text).expect("an LEI"));
    let strip = Holding {
        side: Side::Long,
        kind: Kind::Coupon,
        issuer: Issuer::Corporation(second),
        maturity: LONGER,
        value: 1_000,
        currency: Currency::Cad,
        rating: Some(Rating::Lower),
    };
    let bond = Holding {
        side: Side::Short,
        kind: Kind::Bond,
        rating: Some(Rating::SingleA),
        ..strip
    };
    let other = Holding {
        issuer: Issuer::Corporation(first),
        ..bond
    };
    let quebec = Holding {
        issuer: Issuer::Quebec,
        rating: None,
        ..bond
    };
    let line = Line {
        long: 0,
        short: 3,
        amount: 1_000,
    };
    let book = Book::new(
        VALUED,
        AccountKind::Participant,
        [strip, quebec, other, bond],
    );
    assert_eq!(book.corporations(), [second, first]);
    let proposal = Proposal::new([29_200, 0, 0, 0], [line]);
    let text = "D,2025-01-01,P,,,,,,\r\n\
                H,L,C,7ZW8QJWVPR4P1J1KQY45,2046-11-27,1000,29200,CAD,N\r\n\
                H,S,B,QC,2046-11-27,1000,0,CAD,\r\n\
                H,S,B,5493001KJTIIGC8Y1R12,2046-11-27,1000,0,CAD,Y\r\n\
                H,S,B,\"7ZW8QJWVPR4P1J1KQY45\",2046-11-27,1000,0,CAD,Y\r\n\
                P,0,3,1000,,,,,\r\n";
    assert_eq!(read_leis(text.as_bytes()), Ok(vec![second, first]));
    let issuers = read_columns(text.as_bytes()).map(|(_, columns)| columns.issuer);
    assert_eq!(issuers, Ok(vec![100, 9, 101, 100]));
    assert_eq!(check(&book, &proposal), check_file(text.as_bytes()));
    assert_eq!(read(text.as_bytes()), Ok((book, proposal)));
    // 20 per cent for the pair, 10 for the bond of the other and 5 for Quebec's.
    let cents = check_file(text.as_bytes()).map(|accepted| accepted.figures.cents);
    assert_eq!(cents, Ok(350));
}

#[test]
fn as_many_corporations_as_there_may_be() {
    let records: Vec<String> = (100..356)
        .map(|number| rated("Y", &format!("L,B,{},2030-06-24,1,0", issuer_text(number))))
        .collect();
    let (book, _) = read(&dated(&records)).expect("it is read");
    let leis = book.corporations();
    assert_eq!(leis.len(), 256);
    for (number, (lei, holding)) in (100..).zip(leis.iter().zip(&book.holdings)) {
        assert_eq!(lei.to_string(), issuer_text(number));
        assert_eq!(holding.issuer, Issuer::Corporation(*lei));
    }
    assert_eq!(read_leis(&dated(&records)), Ok(leis));
}

#[test]
fn a_currency_that_is_none() {
    for (at, currency) in [(1, "EUR"), (2, ""), (3, "cad")] {
        let record = at as u64;
        let refusal = Err(Refusal::FieldNotOfItsSort { record });
        let printed = PRINTED[at].replace("CAD", currency);
        assert_eq!(read(&with(at, &printed)), refusal, "{currency:?}");
    }
}

#[test]
fn files_without_a_holding() {
    let refusal = Refusal::RecordOutOfOrder { record: 0 };
    assert_eq!(read(b""), Err(refusal));
    assert_eq!(check_file(b""), Err(refusal));
    let date = joined(&PRINTED[..1]);
    let book = Book::new(VALUED, AccountKind::Participant, []);
    assert_eq!(read(&date), Ok((book, Proposal::default())));
    assert_eq!(check_file(&date), Ok(Accepted::default()));
}

#[test]
fn dates_that_are_none() {
    // A book has no room for them: the date first, then the first maturity, whatever else is wrong.
    let invalid = |holding| Refusal::DateInvalid { holding };
    let date = with(0, &valued("2025-02-29"));
    assert_eq!(read(&date), Err(invalid(0)));
    assert_eq!(check_file(&date), Err(invalid(0)));
    assert_eq!(
        read_sheet(&date).map(|sheet| sheet.head.date),
        Ok(2025_02_29)
    );
    let mut records = PRINTED.map(str::to_string);
    records[1] = holding("L,C,CA,2030-06-24,0,0");
    for record in &mut records[2..4] {
        *record = record.replace("06-24", "06-31");
    }
    let maturities = joined(&records);
    assert_eq!(read(&maturities), Err(invalid(1)));
    assert_eq!(
        check_file(&maturities),
        Err(Refusal::ValueOutOfRange { holding: 0 })
    );
    let sheet = read_sheet(&maturities).map(|sheet| sheet.columns.maturity);
    assert_eq!(sheet, Ok(vec![2030_06_24, 2030_06_31, 2030_06_31]));
}

#[test]
fn every_refusal_of_a_file() {
    let too_long = vec![b','; 65_537];
    assert_eq!(read(&too_long), Err(Refusal::FileTooLong));
    for at in 0..PRINTED.len() {
        let record = at as u64;
        let refusal = Err(Refusal::RecordIllFormed { record });
        assert_eq!(read(&with(at, "\"")), refusal);
        let refusal = Err(Refusal::WrongNumberOfFields { record });
        assert_eq!(read(&with(at, "")), refusal);
        let refusal = Err(Refusal::FieldNotOfItsSort { record });
        assert_eq!(read(&with(at, &of_width("h", FIELDS))), refusal);
        let refusal = Refusal::LeiOrRatingInvalid { record };
        let wrong = with(at, &rated("Y", "L,C,CA,2030-06-24,1000000,0"));
        assert_eq!(read(&wrong), Err(refusal));
        assert_eq!(check_file(&wrong), Err(refusal));
        assert_eq!(read_leis(&wrong), Err(refusal));
    }
    for (at, other) in [(0, 1), (0, 4), (1, 0), (3, 0), (5, 0), (5, 1)] {
        let record = at as u64;
        let refusal = Err(Refusal::RecordOutOfOrder { record });
        assert_eq!(read(&with(at, PRINTED[other])), refusal);
    }
    let holdings = dated(&[PRINTED[1]; 257]);
    assert_eq!(read(&holdings), Err(Refusal::TooManyHoldings));
    let lines = dated(&[PRINTED[4]; 513]);
    assert_eq!(read(&lines), Err(Refusal::TooManyLines));
}

#[test]
fn ranges_are_left_to_the_check() {
    let columns = |text: &[u8]| {
        let (book, proposal) = read(text)?;
        Ok::<_, Refusal>(Columns::of(&book, &proposal))
    };
    let long = with(1, &holding("L,C,CA,2125-01-02,1000000,0"));
    assert_eq!(
        columns(&long).map(|columns| columns.maturity[0]),
        Ok(2125_01_02)
    );
    let refusal = Err(Refusal::MaturityOutOfRange { holding: 0 });
    assert_eq!(check_file(&long), refusal);
    let large = with(3, &holding("S,R,ON,2030-06-24,999999999999,6570"));
    assert_eq!(
        columns(&large).map(|columns| columns.value[2]),
        Ok(999_999_999_999)
    );
    let refusal = Err(Refusal::ValueOutOfRange { holding: 2 });
    assert_eq!(check_file(&large), refusal);
    let far = with(5, &line("0,999999,300000"));
    assert_eq!(columns(&far).map(|columns| columns.short[1]), Ok(999_999));
    let refusal = Err(Refusal::NotInBook { line: 1 });
    assert_eq!(check_file(&far), refusal);
}

/// The lines that the program prints, from the wrapper's answers.
fn printed(text: &[u8]) -> String {
    let (sheet, accepted) = match read_sheet(text).and_then(|sheet| Ok((sheet, check_file(text)?)))
    {
        Ok(both) => both,
        Err(refusal) => {
            let (number, place, second) = (refusal.number(), refusal.place(), refusal.second());
            return format!("X,{number},{place},{second}\r\n");
        }
    };
    let Figures { units, cents } = accepted.figures;
    let mut lines = format!("M,{units},{cents}\r\n");
    for number in accepted.ranking {
        let left = accepted.remainder[number as usize];
        let units = sheet.position(number as usize).rate * left;
        lines += &format!("R,{number},{left},{units}\r\n");
    }
    lines
}

fn printed_alike(text: &[u8], what: &str) {
    assert_eq!(read_sheet(text), calculator::read(text), "{what}");
    let calculated = String::from_utf8(print(text)).expect("ASCII");
    assert_eq!(printed(text), calculated, "{what}");
}

#[test]
fn each_case_as_the_calculator_prints_it() {
    for case in all() {
        printed_alike(&case.text, &case.title);
    }
}

#[test]
fn random_books_as_the_calculator_prints_them() {
    let mut random = Random::new(0x0B01);
    for shape in &SHAPES {
        for size in [0, 1, 2, 5, 16, 60] {
            for _ in 0..4 {
                let sheet = best_sheet(&book(&mut random, shape, size));
                let mut text = text_of(&sheet);
                printed_alike(&text, shape.name);
                let at = random.place(text.len());
                text[at] = random.pick(b"0123456789");
                printed_alike(&text, shape.name);
            }
        }
    }
}
