//! What is said once for a book, in numbers.

use crate::Book;

/// The head of a book: its valuation date and the letter of its account as numbers, which the check judges
/// whatever they are.
///
/// ```
/// use margin_host::{AccountKind, Book, Date, Head};
///
/// let date = Date::new(2025, 1, 1).expect("a day");
/// let book = Book::new(date, AccountKind::Client, []);
/// assert_eq!(Head::of(&book), Head { date: 2025_01_01, letter: 1 });
/// ```
#[derive(Clone, Copy, Debug, PartialEq, Eq, Hash)]
pub struct Head {
    /// The valuation date as YYYYMMDD: [`Date::number`](crate::Date::number).
    pub date: u64,
    /// 0 for an approved participant, 1 for a client: [`AccountKind::number`](crate::AccountKind::number).
    pub letter: u64,
}

impl Head {
    /// The head of a book.
    #[must_use]
    pub fn of(book: &Book) -> Head {
        Head {
            date: book.date.number(),
            letter: book.account.number(),
        }
    }
}
