//! A book and a proposal as columns.

use std::collections::HashMap;

use crate::{
    AccountKind, Book, Currency, Date, Head, Holding, Issuer, Kind, Lei, Line, Proposal, Rating,
    Refusal, Side,
};

/// The number of no rating in a column.
pub(crate) const NO_RATING: u64 = 2;

/// Defines the columns by their names, in the order in which they are lent.
macro_rules! columns {
    (
        holdings { $($(#[$of_a_holding:meta])* $holding:ident,)+ }
        lines { $($(#[$of_a_line:meta])* $line:ident,)+ }
    ) => {
        /// The columns of a book and of a proposal on it: entry `i` of `side` to `rating` belongs to
        /// holding `i`, and entry `i` of `long` to `amount` to line `i`.
        ///
        /// What a column is, is left open: `Columns<&[u64]>` and `Columns<Vec<u64>>` have numbers,
        /// which the check judges whatever they are; [`raw`](crate::raw) has bytes.
        ///
        /// ```
        /// use margin_host::Columns;
        ///
        /// let columns: Columns<&[u64]> = Columns {
        ///     side: &[0, 1, 1],
        ///     kind: &[1, 0, 2],
        ///     issuer: &[0, 0, 7],
        ///     maturity: &[2030_06_24, 2030_06_24, 2030_06_24],
        ///     value: &[1_000_000, 600_000, 300_000],
        ///     price: &[0, 5_840, 6_570],
        ///     currency: &[0, 0, 0],
        ///     rating: &[2, 2, 2],
        ///     long: &[0, 0],
        ///     short: &[1, 2],
        ///     amount: &[600_000, 300_000],
        /// };
        /// assert_eq!(columns.map(<[u64]>::len), Columns::by_group(3, 2));
        /// ```
        #[derive(Clone, Copy, Debug, Default, PartialEq, Eq, Hash)]
        pub struct Columns<C> {
            $($(#[$of_a_holding])* pub $holding: C,)+
            $($(#[$of_a_line])* pub $line: C,)+
        }

        const COUNT: usize = [$(stringify!($holding),)+ $(stringify!($line),)+].len();

        impl<C> Columns<C> {
            /// The same for each column of the holdings, and the same for each column of the lines.
            ///
            /// ```
            /// use margin_host::Columns;
            ///
            /// let counts = Columns::by_group(256, 512);
            /// assert_eq!((counts.side, counts.rating, counts.long), (256, 256, 512));
            /// ```
            #[must_use]
            pub fn by_group(holdings: C, lines: C) -> Columns<C>
            where
                C: Clone,
            {
                Columns { $($holding: holdings.clone(),)+ $($line: lines.clone(),)+ }
            }

            /// The columns from an array in the order in which they are lent.
            ///
            /// ```
            /// use margin_host::Columns;
            ///
            /// let places = Columns::from_array(std::array::from_fn(|place| place));
            /// assert_eq!((places.side, places.kind, places.issuer), (0, 1, 2));
            /// ```
            #[must_use]
            pub fn from_array([$($holding,)+ $($line,)+]: [C; COUNT]) -> Columns<C> {
                Columns { $($holding,)+ $($line,)+ }
            }

            /// The columns as an array in the order in which they are lent.
            ///
            /// ```
            /// use margin_host::Columns;
            ///
            /// let [side, .., amount] = Columns::by_group(256, 512).into_array();
            /// assert_eq!((side, amount), (256, 512));
            /// ```
            #[must_use]
            pub fn into_array(self) -> [C; COUNT] {
                let Columns { $($holding,)+ $($line,)+ } = self;
                [$($holding,)+ $($line,)+]
            }

            /// The columns by reference.
            ///
            /// ```
            /// use margin_host::Columns;
            ///
            /// let columns = Columns::by_group(vec![0; 3], vec![0; 2]);
            /// assert_eq!(columns.each_ref().map(Vec::len), Columns::by_group(3, 2));
            /// ```
            #[must_use]
            pub fn each_ref(&self) -> Columns<&C> {
                let Columns { $($holding,)+ $($line,)+ } = self;
                Columns { $($holding,)+ $($line,)+ }
            }

            /// The columns by reference, to be changed.
            ///
            /// ```
            /// use margin_host::Columns;
            ///
            /// let mut columns = Columns::by_group(vec![0; 3], vec![0; 2]);
            /// for column in columns.each_mut().into_array() {
            ///     column.push(7);
            /// }
            /// assert_eq!(columns.amount, vec![0, 0, 7]);
            /// ```
            #[must_use]
            pub fn each_mut(&mut self) -> Columns<&mut C> {
                let Columns { $($holding,)+ $($line,)+ } = self;
                Columns { $($holding,)+ $($line,)+ }
            }

            /// The columns, each changed.
            ///
            /// ```
            /// use margin_host::Columns;
            ///
            /// let bytes = Columns::by_group(3, 2).map(|count| 8 * count);
            /// assert_eq!(bytes, Columns::by_group(24, 16));
            /// ```
            #[must_use]
            pub fn map<D>(self, change: impl FnMut(C) -> D) -> Columns<D> {
                Columns::from_array(self.into_array().map(change))
            }
        }
    };
}

columns! {
    holdings {
        /// 0 long, 1 short: [`Side::number`].
        side,
        /// 0 bond or debenture, 1 stripped coupon, 2 residual: [`Kind::number`].
        kind,
        /// 0 Canada, 1 to 10 a province, 11 the United States, 12 the United Kingdom:
        /// [`Issuer::number`]; 100 to 355 a corporation: [`Book::corporations`].
        issuer,
        /// The maturity as YYYYMMDD: [`Date::number`].
        maturity,
        /// Market value in Canadian cents, 1 to 100,000,000,000.
        value,
        /// The proposal's price of each holding, 0 to 43,800.
        price,
        /// 0 CAD, 1 USD, 2 GBP: [`Currency::number`].
        currency,
        /// Of a corporation 0 single A or higher, 1 lower: [`Rating::number`]; of a government 2.
        rating,
    }
    lines {
        /// The long of each line.
        long,
        /// The short of each line.
        short,
        /// The amount of each line in cents, 1 or more.
        amount,
    }
}

impl Columns<Vec<u64>> {
    /// The columns of a book and a proposal. The valuation date and the account are in none of them:
    /// [`Head::of`] has both.
    ///
    /// ```
    /// use margin_host::{
    ///     AccountKind, Book, Columns, Currency, Date, Holding, Issuer, Kind, Proposal, Side,
    /// };
    ///
    /// let date = Date::new(2025, 1, 1).expect("a day");
    /// let holding = Holding {
    ///     side: Side::Short,
    ///     kind: Kind::Residual,
    ///     issuer: Issuer::Ontario,
    ///     maturity: Date::new(2030, 6, 24).expect("a day"),
    ///     value: 300_000,
    ///     currency: Currency::Cad,
    ///     rating: None,
    /// };
    /// let book = Book::new(date, AccountKind::Participant, [holding]);
    /// let columns = Columns::of(&book, &Proposal::new([6_570], []));
    /// assert_eq!((columns.side, columns.kind, columns.issuer), (vec![1], vec![2], vec![7]));
    /// assert_eq!((columns.maturity, columns.rating), (vec![2030_06_24], vec![2]));
    /// ```
    #[must_use]
    pub fn of(book: &Book, proposal: &Proposal) -> Columns<Vec<u64>> {
        let holdings = |number: fn(&Holding) -> u64| book.holdings.iter().map(number).collect();
        let lines = |number: fn(&Line) -> u64| proposal.lines.iter().map(number).collect();
        Columns {
            side: holdings(|holding| holding.side.number()),
            kind: holdings(|holding| holding.kind.number()),
            issuer: issuer_numbers(&book.holdings),
            maturity: holdings(|holding| holding.maturity.number()),
            value: holdings(|holding| holding.value),
            price: proposal.prices.clone(),
            currency: holdings(|holding| holding.currency.number()),
            rating: holdings(|holding| holding.rating.map_or(NO_RATING, Rating::number)),
            long: lines(|line| line.long),
            short: lines(|line| line.short),
            amount: lines(|line| line.amount),
        }
    }

    /// The book with this head and the proposal of columns that the reader has filled, with the LEIs of its
    /// corporations: it knows the account and each side, kind, issuer, currency and rating, but not whether a date
    /// is a day.
    pub(crate) fn book_and_proposal(
        self,
        head: Head,
        leis: &[Lei],
    ) -> Result<(Book, Proposal), Refusal> {
        const KNOWN: &str = "the reader's contract is proved: it knows the account and each side, kind, issuer, currency and rating";
        let issuer = |number: u64| match number.checked_sub(Issuer::FIRST_CORPORATION) {
            Some(place) => leis.get(place as usize).copied().map(Issuer::Corporation),
            None => Issuer::from_number(number),
        };
        let day =
            |number, holding| Date::from_number(number).ok_or(Refusal::DateInvalid { holding });
        let holding = |at: usize| {
            Ok(Holding {
                side: Side::from_number(self.side[at]).expect(KNOWN),
                kind: Kind::from_number(self.kind[at]).expect(KNOWN),
                issuer: issuer(self.issuer[at]).expect(KNOWN),
                maturity: day(self.maturity[at], at as u64)?,
                value: self.value[at],
                currency: Currency::from_number(self.currency[at]).expect(KNOWN),
                rating: Rating::from_number(self.rating[at]),
            })
        };
        let line = |at: usize| Line {
            long: self.long[at],
            short: self.short[at],
            amount: self.amount[at],
        };
        let date = day(head.date, 0)?;
        let account = AccountKind::from_number(head.letter).expect(KNOWN);
        let holdings = (0..self.side.len()).map(holding);
        let holdings = holdings.collect::<Result<Vec<Holding>, Refusal>>()?;
        let lines: Vec<Line> = (0..self.long.len()).map(line).collect();
        let book = Book::new(date, account, holdings);
        Ok((book, Proposal::new(self.price, lines)))
    }
}

/// The numbers of the issuers of holdings: of corporations from 100 by first appearance.
pub(crate) fn issuer_numbers(holdings: &[Holding]) -> Vec<u64> {
    let mut corporations: HashMap<Issuer, u64> = HashMap::new();
    let number = |holding: &Holding| {
        holding.issuer.number().unwrap_or_else(|| {
            let next = Issuer::FIRST_CORPORATION + corporations.len() as u64;
            *corporations.entry(holding.issuer).or_insert(next)
        })
    };
    holdings.iter().map(number).collect()
}
