//! Legal entity identifiers, by which corporations are named.

use std::error::Error;
use std::fmt;
use std::str::FromStr;

/// A legal entity identifier (ISO 17442): 18 capitals or digits and then 2 digits, whose remainder by ISO 7064
/// MOD 97-10 is 1.
///
/// ```
/// use margin_host::{Issuer, Lei};
///
/// let lei: Lei = "5493001KJTIIGC8Y1R12".parse()?;
/// assert_eq!(lei.to_string(), "5493001KJTIIGC8Y1R12");
/// assert_eq!("5493001KJTIIGC8Y1R12".parse(), Ok(Issuer::Corporation(lei)));
/// # Ok::<(), margin_host::InvalidLei>(())
/// ```
#[derive(Clone, Copy, PartialEq, Eq, Hash, PartialOrd, Ord)]
pub struct Lei([u8; Lei::LENGTH]);

impl Lei {
    /// The characters of every LEI.
    pub const LENGTH: usize = 20;

    /// The LEI with this text, if there is one.
    ///
    /// ```
    /// use margin_host::Lei;
    ///
    /// const CORPORATION: Lei = Lei::new("5493001KJTIIGC8Y1R12").expect("an LEI");
    /// assert_eq!(CORPORATION.as_str(), "5493001KJTIIGC8Y1R12");
    /// assert_eq!(Lei::new("5493001KJTIIGC8Y1R13"), None);
    /// assert_eq!(Lei::new("5493001kjtiigc8y1r12"), None);
    /// ```
    #[must_use]
    pub const fn new(text: &str) -> Option<Lei> {
        Lei::from_bytes(text.as_bytes())
    }

    /// The LEI with these characters in ASCII, if there is one.
    ///
    /// ```
    /// use margin_host::Lei;
    ///
    /// let lei = Lei::new("5493001KJTIIGC8Y1R12");
    /// assert_eq!(Lei::from_bytes(b"5493001KJTIIGC8Y1R12"), lei);
    /// assert_eq!(Lei::from_bytes(b"5493001KJTIIGC8Y1R"), None);
    /// ```
    #[must_use]
    pub const fn from_bytes(bytes: &[u8]) -> Option<Lei> {
        match bytes.first_chunk() {
            Some(first) if bytes.len() == Lei::LENGTH && matches!(remainder(first), Some(1)) => {
                Some(Lei(*first))
            }
            _ => None,
        }
    }

    /// The text.
    #[must_use]
    pub const fn as_str(&self) -> &str {
        match str::from_utf8(&self.0) {
            Ok(text) => text,
            Err(_) => unreachable!(),
        }
    }
}

/// The remainder by 97 of the number that is written where each capital stands for two digits, 10 to 35;
/// nothing for a text of another form.
const fn remainder(text: &[u8; Lei::LENGTH]) -> Option<u32> {
    let mut remainder = 0;
    let mut at = 0;
    while at < Lei::LENGTH {
        let byte = text[at];
        remainder = match byte {
            b'0'..=b'9' => 10 * remainder + (byte - b'0') as u32,
            b'A'..=b'Z' if at < Lei::LENGTH - 2 => 100 * remainder + 10 + (byte - b'A') as u32,
            _ => return None,
        } % 97;
        at += 1;
    }
    Some(remainder)
}

/// Writes the text.
impl fmt::Display for Lei {
    fn fmt(&self, f: &mut fmt::Formatter<'_>) -> fmt::Result {
        f.pad(self.as_str())
    }
}

impl fmt::Debug for Lei {
    fn fmt(&self, f: &mut fmt::Formatter<'_>) -> fmt::Result {
        f.debug_tuple("Lei").field(&self.as_str()).finish()
    }
}

/// Reads the text, and no other: capitals, no spaces.
///
/// ```
/// use margin_host::Lei;
///
/// assert!("5493001KJTIIGC8Y1R12".parse::<Lei>().is_ok());
/// assert!("5493001KJTIIGC8Y1R21".parse::<Lei>().is_err());
/// assert!("5493 001KJTIIGC8Y1R12".parse::<Lei>().is_err());
/// ```
impl FromStr for Lei {
    type Err = InvalidLei;

    fn from_str(text: &str) -> Result<Lei, InvalidLei> {
        Lei::new(text).ok_or_else(|| InvalidLei {
            text: text.to_string(),
        })
    }
}

/// A text that is no LEI.
///
/// ```
/// use margin_host::Lei;
///
/// let invalid = "5493001KJTIIGC8Y1R21".parse::<Lei>().expect_err("two digits exchanged");
/// let words = "invalid LEI \"5493001KJTIIGC8Y1R21\": it must be 18 capitals or digits and 2 check digits \
///              that fit them";
/// assert_eq!(invalid.to_string(), words);
/// ```
#[derive(Clone, Debug, PartialEq, Eq, Hash)]
pub struct InvalidLei {
    text: String,
}

impl fmt::Display for InvalidLei {
    fn fmt(&self, f: &mut fmt::Formatter<'_>) -> fmt::Result {
        let InvalidLei { text } = self;
        write!(
            f,
            "invalid LEI {text:?}: it must be 18 capitals or digits and 2 check digits that fit them"
        )
    }
}

impl Error for InvalidLei {}
