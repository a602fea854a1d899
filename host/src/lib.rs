//! The desk's side of the margin check on paired strip bond holdings (article 7204, Groups I, II, V and XI).
//! In Canadian dollars it pairs debt of Canada and its provinces, a provincial bond with a provincial strip only if
//! the province is the same. For an approved participant, but not for a client, it also pairs a bond with a strip: in
//! Canadian dollars of the same corporation, the bond rated single A or higher, and in US dollars or sterling of the
//! same government, Canada, the United States or the United Kingdom.
//!
//! A desk makes a [`Book`] of [`Holding`]s on its valuation date, in a participant's or a client's account, and a
//! [`Proposal`] on it, or reads both from a file with [`read()`]; [`check()`] gives the least margin, or the
//! [`Refusal`]. Through the day a [`DayBook`] books trades as they come, and moves to a later date. All this is done by
//! code that was proved: this package lends it the memory and names its answers. Callers that keep a [`Head`] and
//! [`Columns`] of numbers use [`check_columns`], [`read_columns`] and [`read_leis`], and [`raw`] has all calls on bytes.
//!
//! The file that document 01, the customer's scope, prints, in Canadian dollars and valued on 2025-01-01:
//!
//! ```
//! use margin_host::{
//!     AccountKind, Book, Currency, Date, Figures, Holding, Issuer, Kind, Line, Proposal, Refusal,
//!     Side, check, check_file,
//! };
//!
//! let date = Date::new(2025, 1, 1).expect("a day");
//! let coupon = Holding {
//!     side: Side::Long,
//!     kind: Kind::Coupon,
//!     issuer: Issuer::Canada,
//!     maturity: Date::new(2030, 6, 24).expect("a day"),
//!     value: 1_000_000,
//!     currency: Currency::Cad,
//!     rating: None,
//! };
//! let bond = Holding { side: Side::Short, kind: Kind::Bond, value: 600_000, ..coupon };
//! let residual = Holding {
//!     side: Side::Short,
//!     kind: Kind::Residual,
//!     issuer: Issuer::Ontario,
//!     value: 300_000,
//!     ..coupon
//! };
//! let book = Book::new(date, AccountKind::Participant, [coupon, bond, residual]);
//! let lines = [
//!     Line { long: 0, short: 1, amount: 600_000 },
//!     Line { long: 0, short: 2, amount: 300_000 },
//! ];
//! let mut proposal = Proposal::new([0, 5_840, 6_570], lines);
//! let accepted = check(&book, &proposal)?;
//! assert_eq!(accepted.figures, Figures { units: 3_285_000_000, cents: 22_500 });
//! assert_eq!(accepted.remainder, vec![100_000, 0, 0]);
//! assert_eq!(accepted.ranking, vec![0, 1, 2]);
//!
//! let text = "D,2025-01-01,P,,,,,,\r\n\
//!             H,L,C,CA,2030-06-24,1000000,0,CAD,\r\n\
//!             H,S,B,CA,2030-06-24,600000,5840,CAD,\r\n\
//!             H,S,R,ON,2030-06-24,300000,6570,CAD,\r\n\
//!             P,0,1,600000,,,,,\r\n\
//!             P,0,2,300000,,,,,\r\n";
//! assert_eq!(check_file(text.as_bytes())?, accepted);
//!
//! proposal.prices[2] = 6_569;
//! assert_eq!(check(&book, &proposal), Err(Refusal::PairNotCovered { long: 0, short: 2 }));
//! # Ok::<(), Refusal>(())
//! ```
//!
//! A long strip of a corporation hedged with its bond:
//!
//! ```
//! use margin_host::{
//!     AccountKind, Book, Currency, Date, Holding, Issuer, Kind, Lei, Line, Proposal, Rating, Refusal,
//!     Side, check,
//! };
//!
//! let lei = Lei::new("5493001KJTIIGC8Y1R12").expect("an LEI");
//! let strip = Holding {
//!     side: Side::Long,
//!     kind: Kind::Residual,
//!     issuer: Issuer::Corporation(lei),
//!     maturity: Date::new(2046, 11, 27).expect("a day"),
//!     value: 1_000,
//!     currency: Currency::Cad,
//!     rating: Some(Rating::Lower),
//! };
//! let bond = Holding {
//!     side: Side::Short,
//!     kind: Kind::Bond,
//!     rating: Some(Rating::SingleA),
//!     ..strip
//! };
//! let date = Date::new(2025, 1, 1).expect("a day");
//! let mut book = Book::new(date, AccountKind::Participant, [strip, bond]);
//! let proposal = Proposal::new([29_200, 0], [Line { long: 0, short: 1, amount: 1_000 }]);
//! // 20 per cent in place of 30 for the strip and 10 for the bond.
//! assert_eq!(check(&book, &proposal)?.figures.cents, 200);
//!
//! // A client may not pair them.
//! book.account = AccountKind::Client;
//! assert_eq!(check(&book, &proposal), Err(Refusal::PairNotAllowed { line: 0 }));
//! # Ok::<(), Refusal>(())
//! ```

#![deny(missing_docs)]

mod book;
mod check;
mod codes;
mod columns;
mod date;
mod day_book;
mod head;
mod issuer;
mod lei;
pub mod raw;
mod read;
mod refusal;
mod row;

pub use book::{Book, Holding, Line, Proposal};
pub use check::{Accepted, Figures, check, check_columns};
pub use codes::{AccountKind, Currency, Kind, Rating, Side, UnknownCode};
pub use columns::Columns;
pub use date::{Date, InvalidDate};
pub use day_book::DayBook;
pub use head::Head;
pub use issuer::Issuer;
pub use lei::{InvalidLei, Lei};
pub use read::{check_file, read, read_columns, read_leis};
pub use refusal::Refusal;
pub use row::Row;
