//! A book through the day, in which trades are booked as they come.

use crate::check::{bytes, bytes_mut, halves};
use crate::columns::{NO_RATING, issuer_numbers};
use crate::{
    AccountKind, Book, Currency, Date, Holding, Issuer, Kind, Lei, Rating, Refusal, Row, Side, raw,
};

/// How many numbers corporations can have, from [`Issuer::FIRST_CORPORATION`] on.
const CORPORATIONS: usize = 256;
/// No date: a book without fault refuses to be moved to it, with 24.
const NO_DATE: u64 = 0;

/// A book that trades are booked in as they come, and that moves from one valuation date to a later one.
///
/// Its list has each holding as a [`Row`] and is changed in place. Five totals of the holdings' margins alone are stored
/// with it, in units, one for each period.
///
/// ```
/// use margin_host::{AccountKind, Currency, Date, DayBook, Holding, Issuer, Kind, Refusal, Side};
///
/// let date = Date::new(2025, 1, 1).expect("a day");
/// let bond = Holding {
///     side: Side::Long,
///     kind: Kind::Bond,
///     issuer: Issuer::Ontario,
///     maturity: Date::new(2030, 6, 24).expect("a day"),
///     value: 1_000,
///     currency: Currency::Cad,
///     rating: None,
/// };
/// let coupon = Holding { kind: Kind::Coupon, ..bond };
///
/// let mut book = DayBook::new(date, AccountKind::Client);
/// book.add(&bond)?;
/// book.add(&coupon)?;
/// book.add(&Holding { value: 500, ..bond })?;
/// assert_eq!(book.holdings(), [Holding { value: 1_500, ..bond }, coupon]);
/// assert_eq!(book.totals(), [0, 0, 1_500 * 5_840 + 1_000 * 8_760, 0, 0]);
///
/// let sold = Holding { value: 1_500, ..bond };
/// book.take(&sold)?;
/// assert_eq!(book.take(&sold), Err(Refusal::TakenOutOfRange));
/// assert_eq!(book.holdings(), [coupon]);
///
/// book.move_to(Date::new(2030, 6, 23).expect("a day"))?;
/// assert_eq!(book.totals(), [1_000 * 12, 0, 0, 0, 0]);
/// let matured = book.move_to(coupon.maturity);
/// assert_eq!(matured, Err(Refusal::MaturityOutOfRange { holding: 0 }));
/// # Ok::<(), Refusal>(())
/// ```
#[derive(Clone, Debug)]
pub struct DayBook {
    date: Date,
    account: AccountKind,
    /// The holdings, without fault, each in the numbers of a record.
    list: Vec<[u64; 7]>,
    /// The totals of these holdings.
    totals: [u64; 5],
    /// The corporations by their numbers: all that the list has, and some that it had.
    corporations: Vec<Lei>,
}

/// What an adding and a taking are called on.
type Call = fn(&mut [u8], u64, &mut [u8], u64, u64, &Row, &mut [u8]) -> u64;

impl DayBook {
    /// An empty book on this valuation date, in this account.
    #[must_use]
    pub fn new(date: Date, account: AccountKind) -> DayBook {
        DayBook {
            date,
            account,
            list: Vec::new(),
            totals: [0; 5],
            corporations: Vec::new(),
        }
    }

    /// The day book of a book, with its totals figured.
    ///
    /// # Errors
    ///
    /// 3 for more than 256 holdings, or the first holding's own refusal: 7, 8 or 25.
    ///
    /// # Panics
    ///
    /// If the linked archive breaks the contract that was proved, as only another archive can.
    ///
    /// ```
    /// use margin_host::{AccountKind, Book, Currency, Date, DayBook, Holding, Issuer, Kind, Refusal, Side};
    ///
    /// let bond = Holding {
    ///     side: Side::Long,
    ///     kind: Kind::Bond,
    ///     issuer: Issuer::Canada,
    ///     maturity: Date::new(2030, 6, 24).expect("a day"),
    ///     value: 1_000,
    ///     currency: Currency::Cad,
    ///     rating: None,
    /// };
    /// let date = Date::new(2025, 1, 1).expect("a day");
    /// let book = Book::new(date, AccountKind::Client, [bond, bond]);
    /// let day_book = DayBook::of(&book)?;
    /// assert_eq!(day_book.totals(), [0, 0, 2 * 1_000 * 2_920, 0, 0]);
    /// assert_eq!(day_book.as_book(), book);
    /// # Ok::<(), Refusal>(())
    /// ```
    pub fn of(book: &Book) -> Result<DayBook, Refusal> {
        let mut lent = DayBook::lent(book, [0; 5]);
        match lent.fault() {
            Some(Refusal::StoredTotalsDiffer) => lent.totals = lent.figured(),
            Some(refusal) => return Err(refusal),
            None => {}
        }
        assert_eq!(
            lent.fault(),
            None,
            "booking's contract is proved: totals add up"
        );
        Ok(lent)
    }

    /// The day book of a book and of totals that are stored with it, one for each period.
    ///
    /// # Errors
    ///
    /// As [`DayBook::of`], and then 27 for totals that are off.
    ///
    /// # Panics
    ///
    /// If the linked archive breaks the contract that was proved, as only another archive can.
    ///
    /// ```
    /// use margin_host::{AccountKind, Book, Date, DayBook, Refusal};
    ///
    /// let date = Date::new(2025, 1, 1).expect("a day");
    /// let book = Book::new(date, AccountKind::Client, []);
    /// assert!(DayBook::from_parts(&book, [0; 5]).is_ok());
    /// let off = DayBook::from_parts(&book, [0, 0, 0, 0, 1]);
    /// assert_eq!(off.err(), Some(Refusal::StoredTotalsDiffer));
    /// ```
    pub fn from_parts(book: &Book, totals: [u64; 5]) -> Result<DayBook, Refusal> {
        let lent = DayBook::lent(book, totals);
        match lent.fault() {
            Some(refusal) => Err(refusal),
            None => Ok(lent),
        }
    }

    /// Adds a trade, whose value is the added one: to the first holding equal in everything but the value, or else the
    /// trade joins at the end.
    ///
    /// # Errors
    ///
    /// With place 0 the trade's own refusal, 7 or 25; 8 for a value, or a sum with what is held, outside the limits; 3
    /// for a 257th holding. The book is then as it was.
    ///
    /// # Panics
    ///
    /// If the linked archive breaks the contract that was proved, as only another archive can.
    pub fn add(&mut self, trade: &Holding) -> Result<(), Refusal> {
        self.book(raw::margin_add, trade)
    }

    /// Takes a trade, whose value is the taken one, from the first holding equal in everything but the value. One that
    /// is brought to zero leaves, and later ones move up.
    ///
    /// # Errors
    ///
    /// With place 0 the trade's own refusal, 7 or 25; 27 for zero, or more than is held. The book is then as it was.
    ///
    /// # Panics
    ///
    /// If the linked archive breaks the contract that was proved, as only another archive can.
    pub fn take(&mut self, trade: &Holding) -> Result<(), Refusal> {
        self.book(raw::margin_take, trade)
    }

    /// Moves the book to a later date and refigures its totals.
    ///
    /// # Errors
    ///
    /// 27 for a date that is not later; 7 at the first holding matured by then. The book is then as it was.
    ///
    /// # Panics
    ///
    /// If the linked archive breaks the contract that was proved, as only another archive can.
    pub fn move_to(&mut self, to: Date) -> Result<(), Refusal> {
        let mut totals = self.totals;
        let (number, place) = self.moved(&mut totals, to.number());
        if number == 0 {
            (self.date, self.totals) = (to, totals);
            return Ok(());
        }
        Err(refused(number, place, Refusal::DateNotLater))
    }

    /// The valuation date.
    #[must_use]
    pub fn date(&self) -> Date {
        self.date
    }

    /// Whose account it is.
    #[must_use]
    pub fn account(&self) -> AccountKind {
        self.account
    }

    /// The holdings' margins alone, in units of 1/146,000 cent, added up for each of the periods 1 to 5.
    #[must_use]
    pub fn totals(&self) -> [u64; 5] {
        self.totals
    }

    /// The holdings in the order of their numbers.
    #[must_use]
    pub fn holdings(&self) -> Vec<Holding> {
        self.list
            .iter()
            .map(|numbers| self.holding(numbers))
            .collect()
    }

    /// The book as it stands, for [`check()`](crate::check()).
    #[must_use]
    pub fn as_book(&self) -> Book {
        Book::new(self.date, self.account, self.holdings())
    }

    /// A book that nobody has judged yet.
    fn lent(book: &Book, totals: [u64; 5]) -> DayBook {
        let numbers = issuer_numbers(&book.holdings);
        let rows = book.holdings.iter().zip(numbers);
        DayBook {
            date: book.date,
            account: book.account,
            list: rows
                .map(|(holding, issuer)| row(holding, issuer).to_numbers())
                .collect(),
            totals,
            corporations: book.corporations(),
        }
    }

    /// What is wrong with a book, which a move to no date says before that.
    fn fault(&self) -> Option<Refusal> {
        let mut totals = self.totals;
        match self.moved(&mut totals, NO_DATE) {
            (24, 0) => None,
            (number, place) => Some(refused(number, place, Refusal::StoredTotalsDiffer)),
        }
    }

    /// The totals of holdings without fault: of each alone they are those after adding it to an empty book.
    fn figured(&self) -> [u64; 5] {
        let mut figured = [0; 5];
        for numbers in &self.list {
            let mut alone = DayBook::new(self.date, self.account);
            let booked = alone.book_row(raw::margin_add, &Row::from_numbers(*numbers));
            booked.expect("booking's contract is proved: it adds a holding without fault");
            for (sum, total) in figured.iter_mut().zip(alone.totals) {
                *sum += total;
            }
        }
        figured
    }

    /// Number and place of moving the book, of which only the totals lent are written.
    fn moved(&self, totals: &mut [u64], to: u64) -> (u64, u64) {
        let (list, count) = (bytes(self.list.as_flattened()), self.list.len() as u64);
        let (date, letter) = (self.date.number(), self.account.number());
        let mut answer = [0; 16];
        let number = raw::margin_move(
            list,
            count,
            bytes_mut(totals),
            date,
            letter,
            to,
            &mut answer,
        );
        (number, halves(&answer).0)
    }

    fn book(&mut self, call: Call, trade: &Holding) -> Result<(), Refusal> {
        let row = self.row(trade);
        self.book_row(call, &row)
    }

    fn book_row(&mut self, call: Call, trade: &Row) -> Result<(), Refusal> {
        let count = self.list.len();
        // A place for a trade that joins.
        self.list.push([0; 7]);
        let (date, letter) = (self.date.number(), self.account.number());
        let (list, totals) = (
            bytes_mut(self.list.as_flattened_mut()),
            bytes_mut(&mut self.totals),
        );
        let mut answer = [0; 16];
        let number = call(list, count as u64, totals, date, letter, trade, &mut answer);
        let first = halves(&answer).0;
        if number == 0 {
            self.list.truncate(first as usize);
            return Ok(());
        }
        self.list.truncate(count);
        Err(refused(number, first, Refusal::TakenOutOfRange))
    }

    /// The numbers of a trade.
    fn row(&mut self, trade: &Holding) -> Row {
        let known = match trade.issuer {
            Issuer::Corporation(lei) => self.corporation(lei),
            government => government.number(),
        };
        match known {
            Some(issuer) => row(trade, issuer),
            // Each of the 256 holdings is of another corporation, and none of the trade's. The side that the first one's
            // holding does not have makes a trade that is judged as this one is, and that equals no holding either.
            None => {
                let issuer = Issuer::FIRST_CORPORATION;
                let mut held = self.list.iter().map(|numbers| Row::from_numbers(*numbers));
                let first = held.find(|row| row.issuer == issuer);
                Row {
                    side: first.map_or(0, |row| 1 - row.side),
                    ..row(trade, issuer)
                }
            }
        }
    }

    /// The number of a corporation: the one it has, or else the lowest that no holding has.
    fn corporation(&mut self, lei: Lei) -> Option<u64> {
        let number = |place: usize| Issuer::FIRST_CORPORATION + place as u64;
        if let Some(place) = self.corporations.iter().position(|known| *known == lei) {
            return Some(number(place));
        }
        let held: Vec<u64> = self
            .list
            .iter()
            .map(|numbers| Row::from_numbers(*numbers).issuer)
            .collect();
        let place = (0..CORPORATIONS).find(|place| !held.contains(&number(*place)))?;
        match self.corporations.get_mut(place) {
            Some(former) => *former = lei,
            None => self.corporations.push(lei),
        }
        Some(number(place))
    }

    fn holding(&self, numbers: &[u64; 7]) -> Holding {
        const KNOWN: &str = "booking's contract is proved: the list has what was added";
        let row = Row::from_numbers(*numbers);
        let issuer = match row.issuer.checked_sub(Issuer::FIRST_CORPORATION) {
            Some(place) => self
                .corporations
                .get(place as usize)
                .copied()
                .map(Issuer::Corporation),
            None => Issuer::from_number(row.issuer),
        };
        Holding {
            side: Side::from_number(row.side).expect(KNOWN),
            kind: Kind::from_number(row.kind).expect(KNOWN),
            issuer: issuer.expect(KNOWN),
            maturity: Date::from_number(row.maturity).expect(KNOWN),
            value: row.value,
            currency: Currency::from_number(row.currency).expect(KNOWN),
            rating: Rating::from_number(row.rating),
        }
    }
}

/// The numbers of a holding whose issuer has this one.
fn row(holding: &Holding, issuer: u64) -> Row {
    Row {
        side: holding.side.number(),
        kind: holding.kind.number(),
        issuer,
        maturity: holding.maturity.number(),
        value: holding.value,
        currency: holding.currency.number(),
        rating: holding.rating.map_or(NO_RATING, Rating::number),
    }
}

/// The refusal of an order, in which 27 has this meaning.
fn refused(number: u64, place: u64, meaning: Refusal) -> Refusal {
    match (number, Refusal::from_parts(number, place, 0)) {
        (27, _) => meaning,
        (3 | 7 | 8 | 25, Some(refusal)) => refusal,
        _ => unreachable!(
            "booking's contract is proved: with a place for one that joins, on dates and of known sides, kinds, issuers \
             and currencies, it returns 0, 3, 7, 8, 25 or 27, and a place only where the number has one"
        ),
    }
}
