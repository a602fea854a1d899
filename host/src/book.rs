//! A book and a proposal on it.

use std::collections::HashSet;

use crate::{AccountKind, Currency, Date, Issuer, Kind, Lei, Rating, Side};

/// One holding. Its ranges are the check's to judge.
#[derive(Clone, Copy, Debug, PartialEq, Eq, Hash)]
pub struct Holding {
    /// Long or short.
    pub side: Side,
    /// Bond, stripped coupon or residual.
    pub kind: Kind,
    /// Canada, a province, the United States, the United Kingdom or a corporation.
    pub issuer: Issuer,
    /// The maturity, for a coupon its payment date: after the valuation date, and no later than its
    /// 100th anniversary.
    pub maturity: Date,
    /// Market value in Canadian cents, 1 to 100,000,000,000.
    pub value: u64,
    /// What it is denominated in.
    pub currency: Currency,
    /// Whether debt of a corporation is rated single A or higher; nothing for a government.
    pub rating: Option<Rating>,
}

/// A book on its valuation date, in a participant's or a client's account: up to 256 holdings, numbered from 0. Two
/// may be alike in everything.
///
/// ```
/// use margin_host::{AccountKind, Book, Currency, Holding, Issuer, Kind, Side};
///
/// let records = [("ON", "2026-02-05", 1_000), ("QC", "2028-02-29", 2_000)];
/// let mut book = Book::new("2025-01-01".parse()?, AccountKind::Participant, []);
/// for (issuer, maturity, value) in records {
///     book.holdings.push(Holding {
///         side: Side::Long,
///         kind: Kind::Bond,
///         issuer: issuer.parse()?,
///         maturity: maturity.parse()?,
///         value,
///         currency: Currency::Cad,
///         rating: None,
///     });
/// }
/// assert_eq!(book.holdings[1].issuer, Issuer::Quebec);
/// # Ok::<(), Box<dyn std::error::Error>>(())
/// ```
#[derive(Clone, Debug, PartialEq, Eq, Hash)]
pub struct Book {
    /// The valuation date.
    pub date: Date,
    /// Whose account it is: a client has fewer pairs than an approved participant.
    pub account: AccountKind,
    /// The holdings in the order of their numbers.
    pub holdings: Vec<Holding>,
}

impl Book {
    /// A book of these holdings on this valuation date, in this account.
    ///
    /// ```
    /// use margin_host::{AccountKind, Book, Currency, Date, Holding, Issuer, Kind, Side};
    ///
    /// let date = Date::new(2025, 1, 1).expect("a day");
    /// let bond = Holding {
    ///     side: Side::Long,
    ///     kind: Kind::Bond,
    ///     issuer: Issuer::Canada,
    ///     maturity: Date::new(2026, 1, 1).expect("a day"),
    ///     value: 1_000,
    ///     currency: Currency::Cad,
    ///     rating: None,
    /// };
    /// let coupon = Holding { kind: Kind::Coupon, ..bond };
    /// let book = Book::new(date, AccountKind::Client, [bond, coupon]);
    /// assert_eq!(book.holdings, vec![bond, coupon]);
    /// ```
    #[must_use]
    pub fn new(date: Date, account: AccountKind, holdings: impl Into<Vec<Holding>>) -> Book {
        Book {
            date,
            account,
            holdings: holdings.into(),
        }
    }

    /// The corporations of the book by first appearance: the check numbers them from
    /// [`Issuer::FIRST_CORPORATION`] in this order.
    ///
    /// ```
    /// use margin_host::{
    ///     AccountKind, Book, Currency, Date, Holding, Issuer, Kind, Lei, Rating, Side,
    /// };
    ///
    /// let date = Date::new(2025, 1, 1).expect("a day");
    /// let lei = Lei::new("5493001KJTIIGC8Y1R12").expect("an LEI");
    /// let bond = Holding {
    ///     side: Side::Long,
    ///     kind: Kind::Bond,
    ///     issuer: Issuer::Corporation(lei),
    ///     maturity: Date::new(2026, 1, 1).expect("a day"),
    ///     value: 1_000,
    ///     currency: Currency::Cad,
    ///     rating: Some(Rating::SingleA),
    /// };
    /// let coupon = Holding { kind: Kind::Coupon, ..bond };
    /// let book = Book::new(date, AccountKind::Participant, [bond, coupon]);
    /// assert_eq!(book.corporations(), vec![lei]);
    /// ```
    #[must_use]
    pub fn corporations(&self) -> Vec<Lei> {
        let mut known = HashSet::new();
        let corporations = self
            .holdings
            .iter()
            .filter_map(|holding| match holding.issuer {
                Issuer::Corporation(lei) => Some(lei),
                _ => None,
            });
        corporations.filter(|lei| known.insert(*lei)).collect()
    }
}

/// One pair line.
#[derive(Clone, Copy, Debug, PartialEq, Eq, Hash)]
pub struct Line {
    /// The number of a long.
    pub long: u64,
    /// The number of a short.
    pub short: u64,
    /// The amount of market value in cents, 1 or more.
    pub amount: u64,
}

/// A proposal on a book: a price for each holding, and up to 512 lines.
#[derive(Clone, Debug, Default, PartialEq, Eq, Hash)]
pub struct Proposal {
    /// The price of each holding, 0 to 43,800.
    pub prices: Vec<u64>,
    /// The lines in the order of their numbers.
    pub lines: Vec<Line>,
}

impl Proposal {
    /// A proposal of these prices and lines.
    ///
    /// ```
    /// use margin_host::{Line, Proposal};
    ///
    /// let line = Line { long: 0, short: 1, amount: 600_000 };
    /// let proposal = Proposal::new([0, 5_840], [line]);
    /// assert_eq!((proposal.prices.len(), proposal.lines.len()), (2, 1));
    /// ```
    #[must_use]
    pub fn new(prices: impl Into<Vec<u64>>, lines: impl Into<Vec<Line>>) -> Proposal {
        Proposal {
            prices: prices.into(),
            lines: lines.into(),
        }
    }
}
