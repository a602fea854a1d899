//! Issuers: governments, which have a code and a number, and corporations, which have an LEI.

use std::fmt;
use std::str::FromStr;

use crate::{Lei, UnknownCode};

/// Who owes the debt: Canada, a province, the United States or the United Kingdom, in the file by its
/// ISO 3166-1 or ISO 3166-2:CA code, or a corporation, by its LEI.
#[derive(Clone, Copy, Debug, PartialEq, Eq, Hash, PartialOrd, Ord)]
pub enum Issuer {
    /// 0, `CA` in the file.
    Canada,
    /// 1, `AB` in the file.
    Alberta,
    /// 2, `BC` in the file.
    BritishColumbia,
    /// 3, `MB` in the file.
    Manitoba,
    /// 4, `NB` in the file.
    NewBrunswick,
    /// 5, `NL` in the file.
    NewfoundlandAndLabrador,
    /// 6, `NS` in the file.
    NovaScotia,
    /// 7, `ON` in the file.
    Ontario,
    /// 8, `PE` in the file.
    PrinceEdwardIsland,
    /// 9, `QC` in the file.
    Quebec,
    /// 10, `SK` in the file.
    Saskatchewan,
    /// 11, `US` in the file.
    UnitedStates,
    /// 12, `GB` in the file.
    UnitedKingdom,
    /// A corporation: the LEI in the file, and a number from 100 on, by first appearance in the book.
    Corporation(Lei),
}

/// The codes of the governments in the order of their numbers, and what else an issuer may be.
const TEXTS: [&str; 14] = [
    "CA", "AB", "BC", "MB", "NB", "NL", "NS", "ON", "PE", "QC", "SK", "US", "GB", "an LEI",
];

impl Issuer {
    /// Every government, in the order of the numbers.
    pub const GOVERNMENTS: [Issuer; 13] = [
        Issuer::Canada,
        Issuer::Alberta,
        Issuer::BritishColumbia,
        Issuer::Manitoba,
        Issuer::NewBrunswick,
        Issuer::NewfoundlandAndLabrador,
        Issuer::NovaScotia,
        Issuer::Ontario,
        Issuer::PrinceEdwardIsland,
        Issuer::Quebec,
        Issuer::Saskatchewan,
        Issuer::UnitedStates,
        Issuer::UnitedKingdom,
    ];

    /// The number of the first corporation of a book in a column.
    pub const FIRST_CORPORATION: u64 = 100;

    /// The number of a government in a column. That of a corporation depends on the book: it is
    /// [`Issuer::FIRST_CORPORATION`] and its place in [`Book::corporations`](crate::Book::corporations).
    ///
    /// ```
    /// use margin_host::{Issuer, Lei};
    ///
    /// assert_eq!(Issuer::Ontario.number(), Some(7));
    /// let lei = Lei::new("5493001KJTIIGC8Y1R12").expect("an LEI");
    /// assert_eq!(Issuer::Corporation(lei).number(), None);
    /// ```
    #[must_use]
    pub fn number(self) -> Option<u64> {
        let place = Issuer::GOVERNMENTS.iter().position(|known| *known == self);
        place.map(|place| place as u64)
    }

    /// The government with this number, if there is one.
    ///
    /// ```
    /// use margin_host::Issuer;
    ///
    /// assert_eq!(Issuer::from_number(7), Some(Issuer::Ontario));
    /// assert_eq!(Issuer::from_number(100), None);
    /// ```
    #[must_use]
    pub fn from_number(number: u64) -> Option<Issuer> {
        let place = usize::try_from(number).ok()?;
        Issuer::GOVERNMENTS.get(place).copied()
    }
}

/// Writes the text that the issuer has in the file.
///
/// ```
/// use margin_host::Issuer;
///
/// assert_eq!(Issuer::Ontario.to_string(), "ON");
/// ```
impl fmt::Display for Issuer {
    fn fmt(&self, f: &mut fmt::Formatter<'_>) -> fmt::Result {
        match self {
            Issuer::Corporation(lei) => lei.fmt(f),
            government => {
                let place = Issuer::GOVERNMENTS
                    .iter()
                    .position(|known| known == government);
                f.pad(TEXTS[place.expect("every other issuer is a government")])
            }
        }
    }
}

/// Reads the text that the issuer has in the file, and no other.
///
/// ```
/// use margin_host::{Issuer, Lei};
///
/// assert_eq!("ON".parse(), Ok(Issuer::Ontario));
/// let lei = Lei::new("5493001KJTIIGC8Y1R12").expect("an LEI");
/// assert_eq!("5493001KJTIIGC8Y1R12".parse(), Ok(Issuer::Corporation(lei)));
/// assert!("?".parse::<Issuer>().is_err());
/// ```
impl FromStr for Issuer {
    type Err = UnknownCode;

    fn from_str(text: &str) -> Result<Issuer, UnknownCode> {
        let mut named = Issuer::GOVERNMENTS.into_iter().zip(TEXTS);
        let government = named.find(|(_, code)| *code == text);
        let corporation = || Lei::new(text).map(Issuer::Corporation);
        let issuer = government.map(|(issuer, _)| issuer).or_else(corporation);
        issuer.ok_or_else(|| UnknownCode {
            sort: "issuer",
            text: text.to_string(),
            known: &TEXTS,
        })
    }
}
