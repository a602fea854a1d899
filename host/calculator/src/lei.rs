//! Legal entity identifiers: the form of ISO 17442, and ISO 7064's MOD 97-10, for which the number is written
//! out in digits and divided as by hand.

/// The characters of an LEI.
pub(crate) const LEI_LENGTH: usize = 20;
/// The digits at its end, which check the others.
const CHECK_DIGITS: usize = 2;
/// As many digits as an LEI has when it is written out: two for each letter.
const MOST_DIGITS: usize = 2 * LEI_LENGTH;

/// An LEI in form, whatever its remainder.
pub(crate) type Lei = [u8; LEI_LENGTH];

/// A text as an LEI, if it has the form of one.
pub(crate) fn in_form(text: &[u8]) -> Option<Lei> {
    let lei: Lei = text.try_into().ok()?;
    let (first, last) = lei.split_at(LEI_LENGTH - CHECK_DIGITS);
    let capital_or_digit = |byte: &u8| byte.is_ascii_uppercase() || byte.is_ascii_digit();
    (first.iter().all(capital_or_digit) && last.iter().all(u8::is_ascii_digit)).then_some(lei)
}

/// Whether an LEI in form is one.
pub(crate) fn is_good(lei: &Lei) -> bool {
    remainder(lei) == 1
}

/// What is left of the number that a text of capitals and digits stands for when it is divided by 97.
fn remainder(text: &[u8]) -> u32 {
    let mut digits = [0; MOST_DIGITS];
    let mut count = 0;
    for byte in text {
        let value = match byte {
            b'0'..=b'9' => byte - b'0',
            _ => byte - b'A' + 10,
        };
        if value > 9 {
            digits[count] = value / 10;
            count += 1;
        }
        digits[count] = value % 10;
        count += 1;
    }
    let bring_down = |rest: u32, digit: &u8| (10 * rest + u32::from(*digit)) % 97;
    digits[..count].iter().fold(0, bring_down)
}

/// The LEI that begins with these 18 capitals or digits and ends with the standard's check digits, 02 to 98.
///
/// # Panics
///
/// If the text is no beginning of an LEI.
#[must_use]
pub fn with_check_digits(first: &str) -> String {
    let open = format!("{first}00");
    let lei = in_form(open.as_bytes()).expect("18 capitals or digits");
    let digits = 98 - remainder(&lei);
    format!("{first}{digits:02}")
}

/// LEIs of companies, as they are published.
pub const PUBLISHED: [&str; 5] = [
    "5493001KJTIIGC8Y1R12",
    "7ZW8QJWVPR4P1J1KQY45",
    "549300MLUDYVRQOOXS22",
    "HWUPKR0MPOU8FGXBT394",
    "529900T8BM49AURSDO55",
];

#[cfg(test)]
mod tests {
    use super::{PUBLISHED, in_form, is_good, remainder, with_check_digits};

    #[test]
    fn published_ones_are_good() {
        for text in PUBLISHED {
            let lei = in_form(text.as_bytes()).expect("the form of an LEI");
            assert!(is_good(&lei), "{text}");
            assert_eq!(with_check_digits(&text[..18]), text);
            let mut other = lei;
            other[19] = if lei[19] == b'9' { b'0' } else { lei[19] + 1 };
            assert!(!is_good(&other), "{text}");
        }
    }

    #[test]
    fn remainders_of_small_numbers() {
        for (text, wanted) in [
            ("0", 0),
            ("96", 96),
            ("97", 0),
            ("A", 10),
            ("Z", 35),
            ("10A", (1_010) % 97),
            ("ZZ", 3_535 % 97),
            ("A0B", 10_011 % 97),
        ] {
            assert_eq!(remainder(text.as_bytes()), wanted, "{text}");
        }
        // The largest number of all has 38 digits.
        let largest: u128 = 35_353_535_353_535_353_535_353_535_353_535_353_599;
        let wanted = (largest % 97) as u32;
        assert_eq!(remainder(b"ZZZZZZZZZZZZZZZZZZ99"), wanted);
    }

    #[test]
    fn check_digits_outside_the_standards_range() {
        // Each has another LEI with the same beginning, whose check digits are 97 more or 97 less.
        for (text, other) in [
            ("00000000000000000001", "00000000000000000098"),
            ("00000000000000006500", "00000000000000006597"),
            ("00000000000000003299", "00000000000000003202"),
        ] {
            for text in [text, other] {
                let lei = in_form(text.as_bytes()).expect("the form of an LEI");
                assert!(is_good(&lei), "{text}");
            }
            assert_eq!(with_check_digits(&text[..18]), other);
        }
    }

    #[test]
    fn texts_of_another_form() {
        for text in [
            "",
            "CA",
            "5493001KJTIIGC8Y1R1",
            "5493001KJTIIGC8Y1R123",
            "5493001kjtiigc8y1r12",
            "5493001KJTIIGC8Y1RA2",
            "5493001KJTIIGC8Y1R1A",
            "5493001KJTIIGC8Y1R 2",
            "5493 01KJTIIGC8Y1R12",
            "5493001KJTIIGC8Y1/12",
            "5493001KJTIIGC8Y1:12",
            "5493001KJTIIGC8Y1@12",
            "5493001KJTIIGC8Y1[12",
        ] {
            assert_eq!(in_form(text.as_bytes()), None, "{text}");
        }
    }
}
