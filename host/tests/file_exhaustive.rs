//! Every text of a kind: each byte as a field and at each place, each short text, each beginning.

mod support;

use margin_calculator::texts::{PRINTED, date_text, joined, quoted, valued};
use margin_calculator::{CURRENCIES, FIELDS, calendar};
use support::file::{File, Files, after_date, with_field};

/// Every text of so many letters.
fn texts(letters: &[u8], length: u32) -> impl Iterator<Item = Vec<u8>> + '_ {
    let count = letters.len();
    (0..count.pow(length)).map(move |number| {
        let letter = |place| letters[number / count.pow(place) % count];
        (0..length).map(letter).collect()
    })
}

#[test]
fn every_byte_as_a_field() {
    let mut files = Files::fixed("every byte as a field");
    for (record, holdings, lines) in [(PRINTED[0], 0, 0), (PRINTED[1], 1, 0), (PRINTED[4], 0, 1)] {
        for at in 0..FIELDS {
            let mut read = 0;
            for byte in 0..=255u8 {
                let what = format_args!("{byte} as field {at}");
                let [bare, inside] = [&[byte][..], &[b'"', byte, b'"']].map(|field| {
                    let record = with_field(record, at, field);
                    let text = match (holdings, lines) {
                        (0, 0) => record,
                        _ => after_date(record),
                    };
                    files.compare(&File::exact(&text, holdings, lines), what)
                });
                read += usize::from(bare.number == 0);
                match byte {
                    b',' => assert_eq!((bare.number, inside.number), (20, 21), "{what}"),
                    b'\r' | b'\n' => assert_eq!((bare.number, inside.number), (19, 21), "{what}"),
                    b'"' | 0..32 | 127.. => {
                        assert_eq!((bare.number, inside.number), (19, 19), "{what}");
                    }
                    _ => assert_eq!(bare.number, inside.number, "{what}"),
                }
            }
            let wanted = match (holdings, lines, at) {
                (_, _, 0) => 1,
                (1, _, 1) | (0, 0, 2) => 2,
                (1, _, 2) => 3,
                (1, _, 5 | 6) | (_, 1, 1..4) => 10,
                _ => 0,
            };
            assert_eq!(
                read, wanted,
                "bytes that are a value of field {at} of {record}"
            );
        }
    }
}

#[test]
fn every_two_bytes_as_an_issuer() {
    let mut files = Files::fixed("every two bytes as an issuer");
    for one in 0..=255 {
        for other in 0..=255 {
            let text = after_date(with_field(PRINTED[1], 3, &[one, other]));
            files.compare(&File::exact(&text, 1, 0), format_args!("{one}, {other}"));
        }
    }
    assert_eq!(files.seen[0], 13, "thirteen codes");
    assert_eq!(
        files.seen[20],
        2 * 93 + 2,
        "a comma beside text, two commas, and a line end"
    );
}

#[test]
fn every_three_capitals_as_a_currency() {
    let mut files = Files::fixed("every three capitals as a currency");
    let capitals: Vec<u8> = (b'A'..=b'Z').collect();
    for currency in texts(&capitals, 3) {
        let text = after_date(with_field(PRINTED[1], 7, &currency));
        files.compare(&File::exact(&text, 1, 0), format_args!("{currency:?}"));
    }
    assert_eq!(files.seen[0], 3, "three codes");
    assert_eq!(files.seen[21], 26 * 26 * 26 - 3, "no other text");
}

#[test]
fn every_byte_in_a_currency() {
    let mut files = Files::fixed("every byte in a currency");
    for currency in CURRENCIES {
        for at in 0..3 {
            for byte in 0..=255 {
                let mut changed = currency.as_bytes().to_vec();
                changed[at] = byte;
                let text = after_date(with_field(PRINTED[1], 7, &changed));
                files.compare(&File::exact(&text, 1, 0), format_args!("{changed:?}"));
            }
        }
    }
    assert_eq!(files.seen[0], 9, "each currency as it is, at each place");
}

#[test]
fn every_short_letter_of_an_account() {
    let mut files = Files::fixed("every short letter of an account");
    for length in 0..=5 {
        for letter in texts(b"PCpD \"", length) {
            let head = with_field(PRINTED[0], 2, &letter);
            files.compare(&File::exact(&head, 0, 0), format_args!("{letter:?}"));
        }
    }
    assert_eq!(files.seen[0], 4, "P and C, bare and in quotes");
    files.has_seen(&[19, 21], 500);
}

#[test]
fn every_byte_in_a_date() {
    let mut files = Files::fixed("every byte in a date");
    for at in 0..10 {
        for byte in 0..=255 {
            let mut changed = b"2030-06-24".to_vec();
            changed[at] = byte;
            let what = format_args!("{changed:?}");
            let valuation = with_field(PRINTED[0], 1, &changed);
            files.compare(&File::exact(&valuation, 0, 0), what);
            let maturity = after_date(with_field(PRINTED[1], 4, &changed));
            files.compare(&File::exact(&maturity, 1, 0), what);
        }
    }
    assert_eq!(files.seen[0], 2 * (8 * 10 + 2), "any digits, and hyphens");
}

#[test]
fn every_date() {
    let mut files = Files::fixed("every date");
    for date in calendar::dates() {
        let text = date_text(*date);
        let maturity = PRINTED[1].replace("2030-06-24", &text);
        let text = joined(&[valued(&text), maturity]);
        let read = files.compare(&File::exact(&text, 1, 0), format_args!("{date}"));
        assert_eq!((read.number, read.sheet().head.date), (0, *date));
        assert_eq!(read.sheet().maturity, [*date]);
    }
}

#[test]
fn every_short_end_of_a_date() {
    // Texts of a few letters after no beginning, after most of a date and after all of it.
    let mut files = Files::fixed("every short end of a date");
    for begin in ["", "2030-0", "2030-06-24"] {
        for length in 0..=4 {
            for end in texts(b"-019 ", length) {
                let date = [begin.as_bytes(), &end].concat();
                let what = format_args!("{date:?}");
                let valuation = with_field(PRINTED[0], 1, &date);
                files.compare(&File::exact(&valuation, 0, 0), what);
                let maturity = after_date(with_field(PRINTED[1], 4, &date));
                files.compare(&File::exact(&maturity, 1, 0), what);
            }
        }
    }
    // A digit, a hyphen and two digits of three; and nothing after a whole date.
    assert_eq!(files.seen[0], 2 * (27 + 1));
}

#[test]
fn every_beginning_of_a_file() {
    let mut files = Files::fixed("every beginning of a file");
    for text in [joined(&PRINTED), joined(&PRINTED.map(quoted))] {
        let mut read = 0;
        for length in 0..=text.len() {
            let left = files.compare(&File::of(&text[..length]), format_args!("{length} bytes"));
            read += usize::from(left.number == 0);
        }
        assert!(
            read >= 2 * PRINTED.len(),
            "{read} of the beginnings are read"
        );
    }
}

#[test]
fn every_byte_at_every_place() {
    let mut files = Files::fixed("every byte at every place");
    let small = [PRINTED[0], PRINTED[1], PRINTED[4]];
    for text in [joined(&small), joined(&small.map(quoted))] {
        for at in 0..=text.len() {
            for byte in 0..=255 {
                let mut more = text.clone();
                more.insert(at, byte);
                let what = format_args!("{byte} put in at {at}");
                files.compare(&File::exact(&more, 1, 1), what);
                if let Some(there) = text.get(at)
                    && *there != byte
                {
                    more.remove(at + 1);
                    let what = format_args!("{byte} instead of {there} at {at}");
                    files.compare(&File::exact(&more, 1, 1), what);
                }
            }
        }
    }
    files.has_seen(&[0, 19, 20, 21], 100);
}

#[test]
fn every_short_text() {
    let mut files = Files::fixed("every short text");
    let letters = b"\",\r\nH\0";
    for length in 0..8 {
        for text in texts(letters, length) {
            files.compare(&File::exact(&text, 0, 0), format_args!("{length} bytes"));
        }
    }
    assert_eq!(files.seen[0], 0, "none has a date");
    assert_eq!(files.seen[22], 1, "only the empty text has no record");
    files.has_seen(&[19, 20], 1_000);
    // As many fields as a record has take one comma fewer, which is one more than there are here.
    assert_eq!(files.seen[21], 0, "none has that many fields");
}

#[test]
fn every_short_text_after_a_date() {
    let mut files = Files::fixed("every short text after a date");
    for length in 0..FIELDS as u32 {
        for text in texts(b"\",\r\nD", length) {
            let text = after_date(text);
            files.compare(&File::exact(&text, 0, 0), format_args!("{length} bytes"));
        }
    }
    assert_eq!(files.seen[0], 1, "only the date alone is read");
    files.has_seen(&[19, 20], 1_000);
    assert_eq!(files.seen[21], 1, "only commas have that many fields");
}

#[test]
fn every_short_field() {
    let mut files = Files::fixed("every short field");
    let letters = b"\",\r\n1\x7F";
    for length in 0..=5 {
        for field in texts(letters, length) {
            for (record, at) in [
                (PRINTED[1], 6),
                (PRINTED[4], 4),
                (PRINTED[1], 5),
                (PRINTED[1], 7),
                (PRINTED[1], 8),
                (PRINTED[1], 4),
            ] {
                let text = after_date(with_field(record, at, &field));
                files.compare(&File::exact(&text, 1, 1), format_args!("field {at}"));
            }
            for at in [1, 2, 8] {
                let text = with_field(PRINTED[0], at, &field);
                files.compare(&File::exact(&text, 0, 0), format_args!("date, field {at}"));
            }
        }
    }
    files.has_seen(&[0], 10);
    files.has_seen(&[19, 20, 21], 100);
}
