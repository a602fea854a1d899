//! An independent calculator, written from the customer's papers, document 01 with the scope and document 02
//! with what was asked for later, and from the article's text alone. It shares nothing with the proved crates, and the tests hold the one against the other.
//!
//! [`margin_check`] says what the check must return and what it must leave in every lent list, byte for
//! byte, [`margin_read`] the same of the file's reader, [`margin_leis`] of what gives the LEIs of a file, and
//! [`margin_add`], [`margin_take`] and [`margin_move`] of the bookings. A [`Ledger`] says what a history of bookings comes
//! to. [`print()`] says what the program prints for a file. [`optimise`] finds the pairing with the largest saving, and
//! prices that show it. [`calendar`] counts days, [`samples`] makes books from seeds and [`dealing`] orders, [`texts`]
//! writes files, and [`cases`] and [`histories`] have what the programs `cases` and `bookings` are given.

#![deny(missing_docs)]

mod article;
mod booking;
pub mod calendar;
pub mod cases;
mod cover;
mod dates;
pub mod dealing;
mod file;
mod fraction;
pub mod histories;
mod ledger;
mod lei;
mod optimise;
mod plain;
pub mod samples;
mod sheet;
pub mod texts;

pub use article::{Account, Class, Market, Position, pair_rate, saving_rate};
pub use booking::{Order, margin_add, margin_move, margin_take};
pub use file::{
    ACCOUNTS, CURRENCIES, FIELDS, ISSUERS, KINDS, MOST_BYTES, RATINGS, SIDES, margin_leis,
    margin_read, print, read,
};
pub use ledger::{Ledger, totals_of};
pub use lei::{PUBLISHED, with_check_digits};
pub use optimise::{Best, optimise};
pub use plain::margin_check;
pub use sheet::{
    CLIENT, FIRST_CORPORATION, NOT_RATED, PARTICIPANT, Sheet, VALUED, client, participant,
};

/// A holding or a trade in the papers' numbers.
pub use margin_host::Row;

/// The Rust examples of the README.
#[cfg(doctest)]
#[doc = include_str!(concat!(env!("OUT_DIR"), "/readme.md"))]
struct Readme;
