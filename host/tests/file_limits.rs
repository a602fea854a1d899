//! The limits of a file: its bytes, its holdings and its lines.

mod support;

use margin_calculator::texts::{PRINTED, holding, joined, of_width, quoted, records};
use margin_calculator::{FIELDS, Row, Sheet, participant};
use margin_host::Line;
use support::file::{File, Files};

/// How a text begins, what it is filled up with, how it ends, and what it is refused with.
type Long<'a> = (&'a [u8], u8, &'a [u8], (u64, u64));

#[test]
fn files_of_the_greatest_length() {
    let mut files = Files::fixed("files of the greatest length");
    let long = |first: &[u8], fill: u8, last: &[u8], length: usize| {
        let mut text = first.to_vec();
        text.resize(length - last.len(), fill);
        text.extend(last);
        File::of(&text)
    };
    let (book, empty) = (joined(&PRINTED), of_width("", FIELDS));
    let price = holding("L,C,CA,2030-06-24,1,#") + "\r\n";
    let (before, after) = price.split_once('#').expect("the mark of the digits");
    let texts: [Long<'_>; 12] = [
        (b"", b',', b"", (20, 0)),
        (b"", b'x', b"", (20, 0)),
        (b"", 0, b"", (19, 0)),
        (b"\"", b'x', b"\"", (20, 0)),
        (b"\"", b',', b"", (19, 0)),
        (b"", b'"', b"", (20, 0)),
        (b"", b',', b"\0", (19, 0)),
        (&book, b'x', b"", (20, 6)),
        (&book, b'1', empty.as_bytes(), (21, 6)),
        (&book, b',', b"\r\n", (20, 6)),
        (&book, b',', b"\n", (19, 6)),
        (before.as_bytes(), b'1', after.as_bytes(), (21, 0)),
    ];
    for (first, fill, last, wanted) in texts {
        let what = format_args!("filled with {fill}");
        for length in [65_534, 65_536] {
            files.refused(&long(first, fill, last, length), wanted, what);
        }
        for length in [65_537, 65_538, 65_600, 131_072] {
            files.refused(&long(first, fill, last, length), (18, 0), what);
        }
    }
}

#[test]
fn as_many_records_as_there_may_be() {
    let mut files = Files::fixed("as many records as there may be");
    for (holdings, lines, number) in [
        (255, 511, 0),
        (256, 512, 0),
        (256, 0, 0),
        (0, 512, 0),
        (257, 0, 3),
        (257, 513, 3),
        (300, 1, 3),
        (0, 513, 9),
        (256, 513, 9),
        (1, 600, 9),
    ] {
        let mut records = vec![PRINTED[0]];
        records.resize(1 + holdings, PRINTED[1]);
        records.resize(1 + holdings + lines, PRINTED[4]);
        let in_quotes: Vec<String> = records.iter().map(|record| quoted(record)).collect();
        for text in [joined(&records), joined(&in_quotes)] {
            let what = format_args!("{holdings} holdings and {lines} lines");
            for text in [&text[..], &text[..text.len() - 2]] {
                let file = File::exact(text, holdings, lines);
                if number > 0 {
                    files.refused(&file, (number, 0), what);
                } else {
                    let read = files.compare(&file, what);
                    let counts = Some((holdings as u64, lines as u64));
                    assert_eq!((read.number, read.figures()), (0, counts), "{what}");
                }
            }
        }
    }
}

#[test]
fn the_longest_file_that_is_read() {
    // Every issuer is a corporation, every numeral has all the digits that it may have, the dates are none, and
    // every field is in quotes.
    let mut files = Files::fixed("the longest file that is read");
    let holding = Row {
        side: 1,
        kind: 2,
        issuer: 100,
        maturity: 9999_99_99,
        value: 999_999_999_999,
        currency: 2,
        rating: 1,
    };
    let mut sheet = Sheet::of_rows(participant(9999_99_99), &[holding; 256], 999_999);
    for _ in 0..512 {
        sheet.add_line(Line {
            long: 999_999,
            short: 999_999,
            amount: 999_999_999_999,
        });
    }
    let all: Vec<String> = records(&sheet)
        .iter()
        .map(|record| quoted(record))
        .collect();
    let text = joined(&all);
    assert_eq!(text.len(), 48_424);
    files.accepted(
        &File::exact(&text, 256, 512),
        &sheet,
        format_args!("all quoted"),
    );
}
