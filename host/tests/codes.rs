//! Accounts, sides, kinds, issuers, currencies, ratings and dates: their texts and numbers.

use std::fmt::{Debug, Display};
use std::str::FromStr;

use margin_calculator::{ACCOUNTS, CURRENCIES, ISSUERS, KINDS, RATINGS, SIDES};
use margin_host::{
    AccountKind, Currency, Date, InvalidDate, Issuer, Kind, Rating, Side, UnknownCode,
};

/// Texts that are no account, side, kind, issuer, currency or rating.
const UNKNOWN: [&str; 27] = [
    "",
    " ",
    "l",
    "s",
    "b",
    "c",
    "p",
    "PC",
    "ca",
    "Ca",
    "on",
    "YT",
    "NT",
    "NU",
    "CAN",
    "UK",
    "USA",
    "EUR",
    "usd",
    "Gbp",
    "$",
    "0",
    "y",
    "n",
    "A",
    "an LEI",
    "5493001KJTIIGC8Y1R13",
];

/// Every value has the text and the number of its place among all, and no other text or number has one.
fn there_and_back<T>(
    all: &[T],
    texts: &[&str],
    number: fn(T) -> u64,
    from_number: fn(u64) -> Option<T>,
) where
    T: Copy + Debug + PartialEq + Ord + Display + FromStr<Err = UnknownCode>,
{
    assert_eq!(all.len(), texts.len());
    assert!(all.is_sorted(), "in the order of the numbers");
    for (place, (value, text)) in all.iter().zip(texts).enumerate() {
        assert_eq!(number(*value), place as u64);
        assert_eq!(from_number(place as u64), Some(*value));
        assert_eq!(value.to_string(), *text);
        assert_eq!(text.parse(), Ok(*value));
        for changed in [
            text.to_lowercase(),
            format!("{text} "),
            format!(" {text}"),
            format!("\"{text}\""),
            text.repeat(2),
        ] {
            assert!(changed.parse::<T>().is_err(), "{changed:?}");
        }
    }
    for number in [all.len() as u64, 13, 99, 100, 256, 1 << 32, u64::MAX] {
        assert_eq!(from_number(number), None);
    }
    for text in UNKNOWN {
        assert!(text.parse::<T>().is_err(), "{text:?}");
    }
}

#[test]
fn accounts() {
    let texts = ["P", "C"];
    there_and_back(
        &AccountKind::ALL,
        &texts,
        AccountKind::number,
        AccountKind::from_number,
    );
    let named = [AccountKind::Participant, AccountKind::Client];
    assert_eq!(named.map(AccountKind::number), [0, 1]);
}

#[test]
fn sides() {
    there_and_back(&Side::ALL, &["L", "S"], Side::number, Side::from_number);
    assert_eq!([Side::Long, Side::Short].map(Side::number), [0, 1]);
}

#[test]
fn kinds() {
    let texts = ["B", "C", "R"];
    there_and_back(&Kind::ALL, &texts, Kind::number, Kind::from_number);
    let kinds = [Kind::Bond, Kind::Coupon, Kind::Residual];
    assert_eq!(kinds.map(Kind::number), [0, 1, 2]);
}

#[test]
fn issuers() {
    let texts = [
        "CA", "AB", "BC", "MB", "NB", "NL", "NS", "ON", "PE", "QC", "SK", "US", "GB",
    ];
    let number = |issuer: Issuer| issuer.number().expect("a government");
    there_and_back(&Issuer::GOVERNMENTS, &texts, number, Issuer::from_number);
    let named = [
        Issuer::Canada,
        Issuer::Alberta,
        Issuer::BritishColumbia,
        Issuer::Manitoba,
        Issuer::NewBrunswick,
        Issuer::NewfoundlandAndLabrador,
        Issuer::NovaScotia,
        Issuer::Ontario,
        Issuer::PrinceEdwardIsland,
        Issuer::Quebec,
        Issuer::Saskatchewan,
        Issuer::UnitedStates,
        Issuer::UnitedKingdom,
    ];
    assert_eq!(named, Issuer::GOVERNMENTS);
}

#[test]
fn currencies() {
    let texts = ["CAD", "USD", "GBP"];
    there_and_back(
        &Currency::ALL,
        &texts,
        Currency::number,
        Currency::from_number,
    );
    let named = [Currency::Cad, Currency::Usd, Currency::Gbp];
    assert_eq!(named.map(Currency::number), [0, 1, 2]);
}

#[test]
fn ratings() {
    let texts = ["Y", "N"];
    there_and_back(&Rating::ALL, &texts, Rating::number, Rating::from_number);
    let named = [Rating::SingleA, Rating::Lower];
    assert_eq!(named.map(Rating::number), [0, 1]);
}

#[test]
fn the_calculator_has_the_same_texts() {
    let accounts = AccountKind::ALL.map(|account| account.to_string());
    assert_eq!(accounts, ACCOUNTS);
    assert_eq!(Side::ALL.map(|side| side.to_string()), SIDES);
    assert_eq!(Kind::ALL.map(|kind| kind.to_string()), KINDS);
    let issuers = Issuer::GOVERNMENTS.map(|issuer| issuer.to_string());
    assert_eq!(issuers, ISSUERS);
    assert_eq!(Rating::ALL.map(|rating| rating.to_string()), RATINGS[..2]);
    let currencies = Currency::ALL.map(|currency| currency.to_string());
    assert_eq!(currencies, CURRENCIES);
}

#[test]
fn texts_are_padded_as_asked() {
    let (side, issuer) = (Side::Long, Issuer::Ontario);
    assert_eq!(format!("{side:>3}|{issuer:<4}|"), "  L|ON  |");
    assert_eq!(format!("{:>12}|", Date::MIN), "  1900-01-01|");
}

#[test]
fn dates() {
    // The tests of the calendar go through all of them.
    let day = Date::new(2024, 2, 29).expect("a day");
    assert_eq!((day.year(), day.month(), day.day()), (2024, 2, 29));
    assert_eq!(
        (day.number(), day.to_string()),
        (2024_02_29, "2024-02-29".to_string())
    );
    for (year, month, date) in [
        (1899, 12, 31),
        (1900, 2, 29),
        (2025, 0, 1),
        (2025, 1, 0),
        (2025, 2, 29),
        (2025, 4, 31),
        (2025, 13, 1),
        (2100, 2, 29),
        (2300, 1, 1),
        (u16::MAX, u8::MAX, u8::MAX),
    ] {
        assert_eq!(Date::new(year, month, date), None, "{year} {month} {date}");
    }
    for text in [
        "",
        "20250101",
        "2025-1-1",
        "2025-01-1",
        "02025-01-01",
        "2025-02-29",
        "1899-12-31",
        "2300-01-01",
        "2025/01/01",
        " 2025-01-01",
        "2025-01-01 ",
        "+025-01-01",
        "2025-01-\u{e9}",
        "\"2025-01-01\"",
    ] {
        assert!(text.parse::<Date>().is_err(), "{text:?}");
    }
}

#[test]
fn an_unknown_text_in_words() {
    let words = |error: UnknownCode| {
        let error: &dyn std::error::Error = &error;
        error.to_string()
    };
    let side = "LS".parse::<Side>().map_err(words);
    assert_eq!(
        side,
        Err("unknown side \"LS\": it must be L or S".to_string())
    );
    let kind = "".parse::<Kind>().map_err(words);
    assert_eq!(
        kind,
        Err("unknown kind \"\": it must be B, C or R".to_string())
    );
    let issuer = "YT".parse::<Issuer>().map_err(words);
    let wanted =
        "unknown issuer \"YT\": it must be CA, AB, BC, MB, NB, NL, NS, ON, PE, QC, SK, US, GB or an LEI"
            .to_string();
    assert_eq!(issuer, Err(wanted));
    let currency = "EUR".parse::<Currency>().map_err(words);
    let wanted = "unknown currency \"EUR\": it must be CAD, USD or GBP".to_string();
    assert_eq!(currency, Err(wanted));
    let account = "p".parse::<AccountKind>().map_err(words);
    let wanted = "unknown account \"p\": it must be P or C".to_string();
    assert_eq!(account, Err(wanted));
    let rating = "A".parse::<Rating>().map_err(words);
    let wanted = "unknown rating \"A\": it must be Y or N".to_string();
    assert_eq!(rating, Err(wanted));
}

#[test]
fn an_invalid_date_in_words() {
    let invalid: InvalidDate = "2025-02-29".parse::<Date>().expect_err("no day");
    let error: &dyn std::error::Error = &invalid;
    let words = "invalid date \"2025-02-29\": it must be a day from 1900-01-01 to 2299-12-31";
    assert_eq!(error.to_string(), words);
}
