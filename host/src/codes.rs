//! Side, kind, currency, rating and account: each value has a text in the file and a number for the check.

use std::error::Error;
use std::fmt;
use std::str::FromStr;

/// Defines an enum by its values and their texts, numbered from 0 in this order. The value after `such
/// as` stands in the examples, with its number and its text.
macro_rules! coded {
    (
        $(#[$about:meta])*
        $name:ident, $sort:literal, such as $shown:ident $number:literal $shown_text:literal:
        $($(#[$meaning:meta])* $value:ident $text:literal,)+
    ) => {
        $(#[$about])*
        #[derive(Clone, Copy, Debug, PartialEq, Eq, Hash, PartialOrd, Ord)]
        pub enum $name {
            $($(#[$meaning])* $value,)+
        }

        impl $name {
            /// Every value, in the order of the numbers.
            pub const ALL: [$name; [$($text),+].len()] = [$($name::$value),+];

            const TEXTS: &[&str] = &[$($text),+];

            /// The number for the check.
            ///
            /// ```
            #[doc = concat!("use margin_host::", stringify!($name), ";")]
            ///
            #[doc = concat!(
                "assert_eq!(", stringify!($name), "::", stringify!($shown), ".number(), ", $number, ");"
            )]
            /// ```
            #[must_use]
            pub const fn number(self) -> u64 {
                self as u64
            }

            /// The value with this number, if there is one.
            ///
            /// ```
            #[doc = concat!("use margin_host::", stringify!($name), ";")]
            ///
            #[doc = concat!("let known = ", stringify!($name), "::from_number(", $number, ");")]
            #[doc = concat!(
                "assert_eq!(known, Some(", stringify!($name), "::", stringify!($shown), "));"
            )]
            #[doc = concat!("assert_eq!(", stringify!($name), "::from_number(1_000), None);")]
            /// ```
            #[must_use]
            pub fn from_number(number: u64) -> Option<$name> {
                let place = usize::try_from(number).ok()?;
                $name::ALL.get(place).copied()
            }
        }

        /// Writes the text that the value has in the file.
        ///
        /// ```
        #[doc = concat!("use margin_host::", stringify!($name), ";")]
        ///
        #[doc = concat!(
            "assert_eq!(", stringify!($name), "::", stringify!($shown), ".to_string(), \"",
            $shown_text, "\");"
        )]
        /// ```
        impl fmt::Display for $name {
            fn fmt(&self, f: &mut fmt::Formatter<'_>) -> fmt::Result {
                f.pad($name::TEXTS[*self as usize])
            }
        }

        /// Reads the text that the value has in the file, and no other.
        ///
        /// ```
        #[doc = concat!("use margin_host::", stringify!($name), ";")]
        ///
        #[doc = concat!(
            "assert_eq!(\"", $shown_text, "\".parse(), Ok(", stringify!($name), "::",
            stringify!($shown), "));"
        )]
        #[doc = concat!("assert!(\"?\".parse::<", stringify!($name), ">().is_err());")]
        /// ```
        impl FromStr for $name {
            type Err = UnknownCode;

            fn from_str(text: &str) -> Result<$name, UnknownCode> {
                let place = $name::TEXTS.iter().position(|known| *known == text);
                place.map(|place| $name::ALL[place]).ok_or_else(|| UnknownCode {
                    sort: $sort,
                    text: text.to_string(),
                    known: $name::TEXTS,
                })
            }
        }
    };
}

coded! {
    /// Whether a holding is owned or owed.
    Side, "side", such as Short 1 "S":
    /// Owned: 0, `L` in the file.
    Long "L",
    /// Owed: 1, `S` in the file.
    Short "S",
}

coded! {
    /// What a holding is a holding of.
    Kind, "kind", such as Coupon 1 "C":
    /// A bond or debenture: 0, `B` in the file.
    Bond "B",
    /// A stripped coupon: 1, `C` in the file.
    Coupon "C",
    /// A residual, what is left of a bond without its coupons: 2, `R` in the file.
    Residual "R",
}

coded! {
    /// What the debt is denominated in, in the file by its ISO 4217 code. Market values are in Canadian
    /// cents whatever the currency.
    Currency, "currency", such as Usd 1 "USD":
    /// Canadian dollars: 0, `CAD` in the file.
    Cad "CAD",
    /// US dollars: 1, `USD` in the file.
    Usd "USD",
    /// Pounds sterling: 2, `GBP` in the file.
    Gbp "GBP",
}

coded! {
    /// Whether debt of a corporation is rated single A or higher. Debt of a government has no rating, 2 in a
    /// column and empty in the file.
    Rating, "rating", such as Lower 1 "N":
    /// Single A or higher: 0, `Y` in the file.
    SingleA "Y",
    /// Lower, or not rated by an agency: 1, `N` in the file.
    Lower "N",
}

coded! {
    /// Whose account a book is, which decides by which paragraphs its holdings may be paired.
    AccountKind, "account", such as Client 1 "C":
    /// An approved participant's: 0, `P` in the file. It has paragraphs 2, 3 and 4.
    Participant "P",
    /// A client's: 1, `C` in the file. It has paragraph 2 alone, Canada and the provinces in CAD.
    Client "C",
}

/// A text that no side, no kind, no issuer, no currency, no rating or no account has.
///
/// ```
/// use margin_host::Side;
///
/// let unknown = "l".parse::<Side>().expect_err("a capital is asked for");
/// assert_eq!(unknown.to_string(), "unknown side \"l\": it must be L or S");
/// ```
#[derive(Clone, Debug, PartialEq, Eq, Hash)]
pub struct UnknownCode {
    pub(crate) sort: &'static str,
    pub(crate) text: String,
    pub(crate) known: &'static [&'static str],
}

impl fmt::Display for UnknownCode {
    fn fmt(&self, f: &mut fmt::Formatter<'_>) -> fmt::Result {
        write!(f, "unknown {} {:?}: it must be ", self.sort, self.text)?;
        let last = self.known.len() - 1;
        write!(
            f,
            "{} or {}",
            self.known[..last].join(", "),
            self.known[last]
        )
    }
}

impl Error for UnknownCode {}
