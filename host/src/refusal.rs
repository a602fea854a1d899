//! The refusals of the check, of the file's reader and of bookings, in words.

use std::fmt;

/// Why a file, a proposal or an order to a day book was refused, with its place. Holdings, lines and records count
/// from 0, and a trade at fault has place 0. Later numbers may follow.
#[derive(Clone, Copy, Debug, PartialEq, Eq, Hash)]
#[non_exhaustive]
pub enum Refusal {
    /// 1: the holding columns, price, currency and rating among them, or the line columns differ in length or
    /// hold no whole numbers.
    ColumnsDiffer,
    /// 2: a list to be written is shorter than what must be written, or than its count.
    ListTooShort,
    /// 3: more than 256 holdings, or a trade that would be one more.
    TooManyHoldings,
    /// 4: a side that is neither long nor short.
    SideUnknown {
        /// The holding at fault; 0 also for a trade.
        holding: u64,
    },
    /// 5: a kind that is neither bond nor coupon nor residual.
    KindUnknown {
        /// The holding at fault; 0 also for a trade.
        holding: u64,
    },
    /// 6: an issuer that is none of Canada, the provinces, the United States, the United Kingdom and the numbers
    /// of corporations.
    IssuerUnknown {
        /// The holding at fault; 0 also for a trade.
        holding: u64,
    },
    /// 7: a maturity on or before the valuation date or a date that a book is moved to, or past its 100th anniversary.
    MaturityOutOfRange {
        /// The holding at fault; 0 also for a trade.
        holding: u64,
    },
    /// 8: a market value, or one with what a trade adds, outside 1 to 100,000,000,000 cents.
    ValueOutOfRange {
        /// The holding at fault; 0 also for a trade.
        holding: u64,
    },
    /// 9: more than 512 lines.
    TooManyLines,
    /// 10: a price above 43,800.
    PriceTooHigh {
        /// The holding at fault.
        holding: u64,
    },
    /// 11: a line names a number that is not in the book.
    NotInBook {
        /// The line at fault.
        line: u64,
    },
    /// 12: a line's first leg is not long, or its second not short.
    WrongSide {
        /// The line at fault.
        line: u64,
    },
    /// 13: a line's pair is not allowed.
    PairNotAllowed {
        /// The line at fault.
        line: u64,
    },
    /// 14: a line's amount is zero.
    AmountZero {
        /// The line at fault.
        line: u64,
    },
    /// 15: a line's amount is above what remains of either leg.
    AmountAboveRemainder {
        /// The line at fault.
        line: u64,
    },
    /// 16: the prices of an allowed pair add up to less than its saving rate.
    PairNotCovered {
        /// The lowest long with such a pair.
        long: u64,
        /// Its lowest short.
        short: u64,
    },
    /// 17: the priced total differs from the saving.
    TotalsDiffer,
    /// 18: a file of more than 65,536 bytes.
    FileTooLong,
    /// 19: quotes, line ends or characters outside the grammar of RFC 4180.
    RecordIllFormed {
        /// The record at fault.
        record: u64,
    },
    /// 20: a record that has not nine fields.
    WrongNumberOfFields {
        /// The record at fault.
        record: u64,
    },
    /// 21: a field that is no value of its sort, one that must be empty and is not, or no known letter
    /// at the beginning.
    FieldNotOfItsSort {
        /// The record at fault.
        record: u64,
    },
    /// 22: no valuation date at the beginning, as in an empty file, another one later, or a holding after a
    /// pair line.
    RecordOutOfOrder {
        /// The record at fault.
        record: u64,
    },
    /// 23: a currency that is neither CAD nor USD nor GBP.
    CurrencyUnknown {
        /// The holding at fault; 0 also for a trade.
        holding: u64,
    },
    /// 24: a valuation date, a date to move to or a maturity that is no day of the years 1900 to 2299.
    DateInvalid {
        /// The holding at fault; 0 also for the valuation date, the date to move to and a trade.
        holding: u64,
    },
    /// 25 of the check: a corporation without a rating, a government with one, or an unknown rating.
    RatingInvalid {
        /// The holding at fault; 0 also for a trade.
        holding: u64,
    },
    /// 25 of the reader: an LEI whose check digits do not fit, a corporation without a rating, or a government
    /// with one.
    LeiOrRatingInvalid {
        /// The record at fault.
        record: u64,
    },
    /// 26: an account that is neither an approved participant's nor a client's.
    AccountUnknown,
    /// 27 of a lent book: the totals stored with it are not those of its holdings.
    StoredTotalsDiffer,
    /// 27 of taking: zero, or more than the first equal holding holds, which is nothing if none is equal.
    TakenOutOfRange,
    /// 27 of moving: a date that is not later than the book's.
    DateNotLater,
}

impl Refusal {
    /// The number, 1 to 27.
    ///
    /// ```
    /// use margin_host::Refusal;
    ///
    /// assert_eq!(Refusal::AmountZero { line: 3 }.number(), 14);
    /// ```
    #[must_use]
    pub fn number(&self) -> u64 {
        match self {
            Refusal::ColumnsDiffer => 1,
            Refusal::ListTooShort => 2,
            Refusal::TooManyHoldings => 3,
            Refusal::SideUnknown { .. } => 4,
            Refusal::KindUnknown { .. } => 5,
            Refusal::IssuerUnknown { .. } => 6,
            Refusal::MaturityOutOfRange { .. } => 7,
            Refusal::ValueOutOfRange { .. } => 8,
            Refusal::TooManyLines => 9,
            Refusal::PriceTooHigh { .. } => 10,
            Refusal::NotInBook { .. } => 11,
            Refusal::WrongSide { .. } => 12,
            Refusal::PairNotAllowed { .. } => 13,
            Refusal::AmountZero { .. } => 14,
            Refusal::AmountAboveRemainder { .. } => 15,
            Refusal::PairNotCovered { .. } => 16,
            Refusal::TotalsDiffer => 17,
            Refusal::FileTooLong => 18,
            Refusal::RecordIllFormed { .. } => 19,
            Refusal::WrongNumberOfFields { .. } => 20,
            Refusal::FieldNotOfItsSort { .. } => 21,
            Refusal::RecordOutOfOrder { .. } => 22,
            Refusal::CurrencyUnknown { .. } => 23,
            Refusal::DateInvalid { .. } => 24,
            Refusal::RatingInvalid { .. } | Refusal::LeiOrRatingInvalid { .. } => 25,
            Refusal::AccountUnknown => 26,
            Refusal::StoredTotalsDiffer | Refusal::TakenOutOfRange | Refusal::DateNotLater => 27,
        }
    }

    /// The place: the holding, the line, the long or the record; 0 where there is none.
    ///
    /// ```
    /// use margin_host::Refusal;
    ///
    /// assert_eq!(Refusal::AmountZero { line: 3 }.place(), 3);
    /// assert_eq!(Refusal::TotalsDiffer.place(), 0);
    /// ```
    #[must_use]
    pub fn place(&self) -> u64 {
        match *self {
            Refusal::ColumnsDiffer
            | Refusal::ListTooShort
            | Refusal::TooManyHoldings
            | Refusal::TooManyLines
            | Refusal::TotalsDiffer
            | Refusal::FileTooLong
            | Refusal::AccountUnknown
            | Refusal::StoredTotalsDiffer
            | Refusal::TakenOutOfRange
            | Refusal::DateNotLater => 0,
            Refusal::SideUnknown { holding }
            | Refusal::KindUnknown { holding }
            | Refusal::IssuerUnknown { holding }
            | Refusal::MaturityOutOfRange { holding }
            | Refusal::ValueOutOfRange { holding }
            | Refusal::CurrencyUnknown { holding }
            | Refusal::DateInvalid { holding }
            | Refusal::RatingInvalid { holding }
            | Refusal::PriceTooHigh { holding } => holding,
            Refusal::NotInBook { line }
            | Refusal::WrongSide { line }
            | Refusal::PairNotAllowed { line }
            | Refusal::AmountZero { line }
            | Refusal::AmountAboveRemainder { line } => line,
            Refusal::PairNotCovered { long, .. } => long,
            Refusal::RecordIllFormed { record }
            | Refusal::WrongNumberOfFields { record }
            | Refusal::FieldNotOfItsSort { record }
            | Refusal::LeiOrRatingInvalid { record }
            | Refusal::RecordOutOfOrder { record } => record,
        }
    }

    /// The second place: the short of an uncovered pair, otherwise 0.
    ///
    /// ```
    /// use margin_host::Refusal;
    ///
    /// assert_eq!(Refusal::PairNotCovered { long: 0, short: 2 }.second(), 2);
    /// assert_eq!(Refusal::AmountZero { line: 3 }.second(), 0);
    /// ```
    #[must_use]
    pub fn second(&self) -> u64 {
        match *self {
            Refusal::PairNotCovered { short, .. } => short,
            _ => 0,
        }
    }

    /// The refusal with this number and these places, if they say which. The place of 25 is taken for a holding,
    /// as the check gives it; [`Refusal::from_reader_parts`] takes it for a record. Between the meanings of 27 its
    /// number does not decide.
    ///
    /// ```
    /// use margin_host::Refusal;
    ///
    /// let refusal = Refusal::from_parts(14, 3, 0);
    /// assert_eq!(refusal, Some(Refusal::AmountZero { line: 3 }));
    /// assert_eq!(Refusal::from_parts(14, 3, 1), None);
    /// assert_eq!(Refusal::from_parts(27, 0, 0), None);
    /// ```
    #[must_use]
    pub fn from_parts(number: u64, place: u64, second: u64) -> Option<Refusal> {
        let (holding, line, record) = (place, place, place);
        let refusal = match number {
            1 => Refusal::ColumnsDiffer,
            2 => Refusal::ListTooShort,
            3 => Refusal::TooManyHoldings,
            4 => Refusal::SideUnknown { holding },
            5 => Refusal::KindUnknown { holding },
            6 => Refusal::IssuerUnknown { holding },
            7 => Refusal::MaturityOutOfRange { holding },
            8 => Refusal::ValueOutOfRange { holding },
            9 => Refusal::TooManyLines,
            10 => Refusal::PriceTooHigh { holding },
            11 => Refusal::NotInBook { line },
            12 => Refusal::WrongSide { line },
            13 => Refusal::PairNotAllowed { line },
            14 => Refusal::AmountZero { line },
            15 => Refusal::AmountAboveRemainder { line },
            16 => Refusal::PairNotCovered {
                long: place,
                short: second,
            },
            17 => Refusal::TotalsDiffer,
            18 => Refusal::FileTooLong,
            19 => Refusal::RecordIllFormed { record },
            20 => Refusal::WrongNumberOfFields { record },
            21 => Refusal::FieldNotOfItsSort { record },
            22 => Refusal::RecordOutOfOrder { record },
            23 => Refusal::CurrencyUnknown { holding },
            24 => Refusal::DateInvalid { holding },
            25 => Refusal::RatingInvalid { holding },
            26 => Refusal::AccountUnknown,
            _ => return None,
        };
        (refusal.place() == place && refusal.second() == second).then_some(refusal)
    }

    /// The refusal of the reader with this number and these places, if it gives one.
    ///
    /// ```
    /// use margin_host::Refusal;
    ///
    /// let refusal = Refusal::from_reader_parts(25, 3, 0);
    /// assert_eq!(refusal, Some(Refusal::LeiOrRatingInvalid { record: 3 }));
    /// assert_eq!(Refusal::from_reader_parts(14, 3, 0), None);
    /// ```
    #[must_use]
    pub fn from_reader_parts(number: u64, place: u64, second: u64) -> Option<Refusal> {
        match number {
            2 | 3 | 9 | 18..=22 => Refusal::from_parts(number, place, second),
            25 if second == 0 => Some(Refusal::LeiOrRatingInvalid { record: place }),
            _ => None,
        }
    }
}

/// Writes a clause for a message such as `refused: ...`, without a full stop.
///
/// ```
/// use margin_host::Refusal;
///
/// let message = format!("refused: {}", Refusal::AmountZero { line: 3 });
/// assert_eq!(message, "refused: line 3, counting from 0, has amount 0, and the least is 1 cent");
/// ```
impl fmt::Display for Refusal {
    fn fmt(&self, f: &mut fmt::Formatter<'_>) -> fmt::Result {
        let (place, second, fault) = (self.place(), self.second(), self.fault());
        match self.number() {
            25 if matches!(self, Refusal::LeiOrRatingInvalid { .. }) => {
                write!(f, "record {place}, counting from 0, {fault}")
            }
            4..=8 | 23 | 25 if place == 0 => {
                write!(f, "holding 0, counting from 0, or the trade {fault}")
            }
            4..=8 | 10 | 23 | 25 => write!(f, "holding {place}, counting from 0, {fault}"),
            11..=15 => write!(f, "line {place}, counting from 0, {fault}"),
            16 => write!(
                f,
                "the prices of long holding {place} and short holding {second}, counting from 0, {fault}"
            ),
            19..=22 => write!(f, "record {place}, counting from 0, {fault}"),
            24 if place == 0 => write!(
                f,
                "the valuation date, the date to move to, or the maturity of the trade or of holding 0, counting \
                 from 0, {fault}"
            ),
            24 => write!(
                f,
                "the maturity of holding {place}, counting from 0, {fault}"
            ),
            _ => f.write_str(fault),
        }
    }
}

impl Refusal {
    /// What is wrong: a clause, or the end of one that begins with the place.
    fn fault(&self) -> &'static str {
        match self {
            Refusal::ColumnsDiffer => {
                "the columns of the holdings, price, currency and rating among them, must all have the \
                 same length in whole numbers, and so must the columns of the lines"
            }
            Refusal::ListTooShort => {
                "a list lent for the results is too short: remainder, ranking and the columns of \
                 the holdings need one entry for each holding, the columns of the lines one for \
                 each line, the head two entries, the LEIs 20 bytes for each corporation, the list of a \
                 day book 56 bytes for each holding, its totals five entries, the answer 16 bytes"
            }
            Refusal::TooManyHoldings => {
                "the book has more than 256 holdings, or would have with the trade"
            }
            Refusal::SideUnknown { .. } => {
                "has an unknown side: it must be 0 for long or 1 for short"
            }
            Refusal::KindUnknown { .. } => {
                "has an unknown kind: it must be 0 for a bond, 1 for a stripped coupon \
                 or 2 for a residual"
            }
            Refusal::IssuerUnknown { .. } => {
                "has an unknown issuer: it must be 0 for Canada, 1 to 10 for a province, 11 for the \
                 United States, 12 for the United Kingdom or 100 to 355 for a corporation"
            }
            Refusal::MaturityOutOfRange { .. } => {
                "has a maturity on or before the valuation date or the date to move to, or past the former's \
                 100th anniversary"
            }
            Refusal::ValueOutOfRange { .. } => {
                "has a market value, or a sum with the trade, outside 1 to 100,000,000,000 cents"
            }
            Refusal::CurrencyUnknown { .. } => {
                "has an unknown currency: it must be 0 for CAD, 1 for USD or 2 for GBP"
            }
            Refusal::DateInvalid { .. } => "is no day of the years 1900 to 2299",
            Refusal::RatingInvalid { .. } => {
                "has a rating that does not fit its issuer: it must be 0 for single A or higher or 1 for \
                 lower on a corporation, and 2 for none on a government"
            }
            Refusal::AccountUnknown => {
                "the account is unknown: it must be 0 for an approved participant or 1 for a client"
            }
            Refusal::TooManyLines => "the proposal has more than 512 lines",
            Refusal::PriceTooHigh { .. } => "has a price outside 0 to 43,800",
            Refusal::StoredTotalsDiffer => {
                "the totals stored with the book are not those of its holdings"
            }
            Refusal::TakenOutOfRange => {
                "the trade takes zero, or more than the first equal holding holds"
            }
            Refusal::DateNotLater => "the date to move to is not later than the valuation date",
            _ => self.fault_of_lines(),
        }
    }

    fn fault_of_lines(&self) -> &'static str {
        match self {
            Refusal::NotInBook { .. } => "names a holding that is not in the book",
            Refusal::WrongSide { .. } => {
                "must name a long holding first and a short holding second"
            }
            Refusal::PairNotAllowed { .. } => {
                "pairs two holdings that may not be paired: both must lie in one period and be in one \
                 currency; in CAD they must be of Canada or a province and not both bonds, and a bond and a \
                 strip of provinces must be of the same province; for an approved participant, but not for a \
                 client, they may also be a bond and a strip, in CAD of the same corporation, the bond rated \
                 single A or higher, in USD or GBP of the same government, Canada, US or GB"
            }
            Refusal::AmountZero { .. } => "has amount 0, and the least is 1 cent",
            Refusal::AmountAboveRemainder { .. } => {
                "has an amount above what the lines before it leave of one of its holdings"
            }
            Refusal::PairNotCovered { .. } => "add up to less than the saving rate of their pair",
            Refusal::TotalsDiffer => {
                "the priced total of the holdings differs from the saving of the lines, \
                 and the two must be equal"
            }
            _ => self.fault_of_the_file(),
        }
    }

    fn fault_of_the_file(&self) -> &'static str {
        match self {
            Refusal::FileTooLong => "the file is longer than 65,536 bytes",
            Refusal::RecordIllFormed { .. } => {
                "has quotes, line ends or characters that the grammar of RFC 4180 does not allow"
            }
            Refusal::WrongNumberOfFields { .. } => "does not have nine fields",
            Refusal::FieldNotOfItsSort { .. } => {
                "begins with none of D, H and P, has a field that is no value of its sort, or fills \
                 one that must be empty"
            }
            Refusal::LeiOrRatingInvalid { .. } => {
                "has an LEI whose check digits do not fit it, no rating on a corporation, or a rating on \
                 a government"
            }
            _ => {
                "is missing or out of its order: one D with the valuation date comes first, then all \
                 holdings, then all pair lines"
            }
        }
    }
}

impl std::error::Error for Refusal {}
