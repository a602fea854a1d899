//! What is read from a file: letters, codes, numerals, quotes and line ends.

mod support;

use margin_calculator::texts::{
    PRINTED, dated, holding, holding_in, joined, of_width, quoted, quoted_at,
};
use margin_calculator::{FIELDS, NOT_RATED, Row, Sheet, VALUED, participant};
use margin_host::{Columns, Head, Line};
use support::column;
use support::file::{File, Files, after_date, with_field};
use support::lent::OF_HOLDINGS;

fn printed() -> Sheet {
    Sheet {
        head: Head {
            date: 2025_01_01,
            letter: 0,
        },
        columns: Columns {
            side: vec![0, 1, 1],
            kind: vec![1, 0, 2],
            issuer: vec![0, 0, 7],
            maturity: vec![2030_06_24, 2030_06_24, 2030_06_24],
            value: vec![1_000_000, 600_000, 300_000],
            price: vec![0, 5_840, 6_570],
            currency: vec![0, 0, 0],
            rating: vec![2, 2, 2],
            long: vec![0, 0],
            short: vec![1, 2],
            amount: vec![600_000, 300_000],
        },
    }
}

fn one_holding(side: u64, kind: u64, issuer: u64, currency: u64) -> Sheet {
    let (maturity, value, rating) = (2030_06_24, 1_000, NOT_RATED);
    let holding = Row {
        side,
        kind,
        issuer,
        maturity,
        value,
        currency,
        rating,
    };
    Sheet::of_rows(participant(VALUED), &[holding], 0)
}

#[test]
fn the_printed_file() {
    let mut files = Files::fixed("the printed file");
    let text = joined(&PRINTED);
    files.accepted(&File::of(&text), &printed(), format_args!("as printed"));
    files.accepted(
        &File::exact(&text, 3, 2),
        &printed(),
        format_args!("exact lists"),
    );
    let open = &text[..text.len() - 2];
    files.accepted(
        &File::exact(open, 3, 2),
        &printed(),
        format_args!("no last CRLF"),
    );
    let all = joined(&PRINTED.map(quoted));
    files.accepted(
        &File::exact(&all, 3, 2),
        &printed(),
        format_args!("in quotes"),
    );
    let open = &all[..all.len() - 2];
    files.accepted(
        &File::exact(open, 3, 2),
        &printed(),
        format_args!("in quotes, no CRLF"),
    );
}

#[test]
fn files_without_a_field() {
    let mut files = Files::fixed("files without a field");
    files.refused(&File::exact(b"", 0, 0), (22, 0), format_args!("empty"));
    files.refused(&File::of(b""), (22, 0), format_args!("empty, long lists"));
    files.refused(&File::of(b"\r\n"), (20, 0), format_args!("a lone CRLF"));
    files.refused(&File::of(b"\r\n\r\n"), (20, 0), format_args!("two CRLFs"));
    files.refused(&File::of(b"\"\""), (20, 0), format_args!("two quotes"));
    files.refused(&File::of(b"\""), (19, 0), format_args!("a quote"));
    files.refused(&File::of(b"\r"), (19, 0), format_args!("a CR"));
    files.refused(&File::of(b"\n"), (19, 0), format_args!("an LF"));
    files.refused(&File::of(b"\n\r"), (19, 0), format_args!("LF and CR"));
    files.refused(
        &File::of(of_width("", FIELDS).as_bytes()),
        (21, 0),
        format_args!("empty fields"),
    );
    for at in 0..=PRINTED.len() {
        let mut records = PRINTED.to_vec();
        records.insert(at, "");
        let what = format_args!("an empty line at {at}");
        files.refused(&File::of(&joined(&records)), (20, at as u64), what);
    }
}

#[test]
fn every_letter_and_code() {
    let mut files = Files::fixed("every letter and code");
    let issuers = [
        ("CA", 0),
        ("AB", 1),
        ("BC", 2),
        ("MB", 3),
        ("NB", 4),
        ("NL", 5),
        ("NS", 6),
        ("ON", 7),
        ("PE", 8),
        ("QC", 9),
        ("SK", 10),
        ("US", 11),
        ("GB", 12),
    ];
    let currencies = [("CAD", 0), ("USD", 1), ("GBP", 2)];
    for (side, side_number) in [("L", 0), ("S", 1)] {
        for (kind, kind_number) in [("B", 0), ("C", 1), ("R", 2)] {
            for (issuer, issuer_number) in issuers {
                for (currency, currency_number) in currencies {
                    let fields = format!("{side},{kind},{issuer},2030-06-24,1000,0");
                    let record = holding_in(currency, &fields);
                    let sheet =
                        one_holding(side_number, kind_number, issuer_number, currency_number);
                    for text in [dated(&[&record]), dated(&[quoted(&record)])] {
                        files.accepted(&File::exact(&text, 1, 0), &sheet, format_args!("{record}"));
                    }
                }
            }
        }
    }
}

#[test]
fn texts_that_are_no_letter_or_code() {
    let mut files = Files::fixed("no letter or code");
    let texts = [
        (
            0,
            &["", "h", "p", "HH", " H", "H ", "D", "P", "M", "X", "R"][..],
        ),
        (1, &["", "l", "s", "LS", "0", "1", " L", "S ", "B"]),
        (2, &["", "b", "c", "r", "BC", "0", "2", " C", "L"]),
        (
            3,
            &[
                "", "ca", "Ca", "C", "CAN", "ON ", " ON", "YT", "NT", "NU", "NF", "us", "U", "USA",
                "UK", "gb", "CAD", "0", "7",
            ],
        ),
        (
            7,
            &[
                "", "cad", "usd", "gbp", "Cad", "C", "CA", "US", "GB", "AD", "CADU", "CADUSD",
                "USDGBP", "ADU", "CAD ", " USD", "US D", "EUR", "JPY", "0", "1", "2", "124", "840",
                "826", "$",
            ],
        ),
        (
            8,
            &[
                "y", "n", "YN", "NY", "YY", "A", "AA", " ", "Y ", " N", "0", "1", "2", "-",
            ],
        ),
    ];
    for (at, texts) in texts {
        for text in texts {
            let record = with_field(PRINTED[1], at, text.as_bytes());
            files.refused(
                &File::of(&after_date(record)),
                (21, 1),
                format_args!("{text:?} as field {at}"),
            );
        }
    }
    for letter in ["", "p", "PP", "H", "D", " P", "L"] {
        let record = with_field(PRINTED[4], 0, letter.as_bytes());
        files.refused(
            &File::of(&after_date(record)),
            (21, 1),
            format_args!("{letter:?} before a line"),
        );
    }
    for letter in ["", "d", "DD", "H", "P", " D", "D "] {
        let record = with_field(PRINTED[0], 0, letter.as_bytes());
        files.refused(
            &File::of(&record),
            (21, 0),
            format_args!("{letter:?} before a date"),
        );
    }
}

/// Record, field, the column that it goes to, and the most digits that it may have.
const NUMERALS: [(&str, usize, usize, usize); 5] = [
    (PRINTED[1], 5, 4, 12),
    (PRINTED[1], 6, 5, 6),
    (PRINTED[4], 1, 8, 6),
    (PRINTED[4], 2, 9, 6),
    (PRINTED[4], 3, 10, 12),
];

#[test]
fn numerals() {
    let mut files = Files::fixed("numerals");
    for (record, field, at, most) in NUMERALS {
        let mut texts = vec!["0".to_string()];
        for digits in 1..=most {
            texts.extend(["1".repeat(digits), "9".repeat(digits)]);
            texts.push(format!("1{}", "0".repeat(digits - 1)));
            texts.push("1234567890123"[..digits].to_string());
        }
        for text in texts {
            let of_holding = at < OF_HOLDINGS;
            let (holdings, lines) = if of_holding { (1, 0) } else { (0, 1) };
            let mut sheet = Sheet::empty(participant(VALUED));
            if of_holding {
                sheet = one_holding(0, 1, 0, 0);
                sheet.value[0] = 1_000_000;
            } else {
                let (long, short, amount) = (0, 1, 600_000);
                sheet.add_line(Line {
                    long,
                    short,
                    amount,
                });
            }
            column(&mut sheet, at)[0] = text.parse().expect("a number");
            for field_text in [text.clone(), format!("\"{text}\"")] {
                let bytes = with_field(record, field, field_text.as_bytes());
                let file = File::exact(&after_date(bytes), holdings, lines);
                files.accepted(&file, &sheet, format_args!("{field_text} as field {field}"));
            }
        }
    }
}

#[test]
fn texts_that_are_no_numerals() {
    let mut files = Files::fixed("no numerals");
    for (record, field, _, most) in NUMERALS {
        let mut texts: Vec<String> = [
            "", "00", "01", "007", "000000", "+1", "-1", "+0", "-0", " 1", "1 ", "1.", "1.0",
            "1e3", "0x1", "1_0", "a", "1a", "a1", "/", ":", "1/", "1:", "L", "'1'",
        ]
        .map(String::from)
        .to_vec();
        for more in 1..=9 {
            texts.extend(["0", "1", "9"].map(|digit| digit.repeat(most + more)));
        }
        texts.push(u64::MAX.to_string());
        // One more than 2^64, which is 1 in 64 bits.
        texts.push("18446744073709551617".to_string());
        texts.push("0".repeat(most));
        texts.push(format!("0{}", "1".repeat(most - 1)));
        texts.push("1".repeat(60_000));
        for text in texts {
            let what = format_args!("{} bytes as field {field}: {:.30}", text.len(), text);
            for field_text in [text.clone(), format!("\"{text}\"")] {
                let record = with_field(record, field, field_text.as_bytes());
                files.refused(&File::of(&after_date(record)), (21, 1), what);
            }
        }
    }
}

#[test]
fn dates() {
    // Any eight digits in the form: whether they are a date is the check's to judge.
    let mut files = Files::fixed("dates");
    for (text, number) in [
        ("2025-01-01", 2025_01_01),
        ("1900-01-01", 1900_01_01),
        ("2299-12-31", 2299_12_31),
        ("2024-02-29", 2024_02_29),
        ("2025-02-29", 2025_02_29),
        ("2025-02-30", 2025_02_30),
        ("1899-12-31", 1899_12_31),
        ("2300-01-01", 2300_01_01),
        ("0000-00-00", 0),
        ("0000-00-01", 1),
        ("0001-00-00", 1_00_00),
        ("9999-99-99", 9999_99_99),
        ("1234-56-78", 1234_56_78),
    ] {
        for field in [text.to_string(), format!("\"{text}\"")] {
            let what = format_args!("{field}");
            let date = with_field(PRINTED[0], 1, field.as_bytes());
            files.accepted(
                &File::exact(&date, 0, 0),
                &Sheet::empty(participant(number)),
                what,
            );
            let mut sheet = one_holding(0, 1, 0, 0);
            (sheet.value[0], sheet.maturity[0]) = (1_000_000, number);
            let maturity = after_date(with_field(PRINTED[1], 4, field.as_bytes()));
            files.accepted(&File::exact(&maturity, 1, 0), &sheet, what);
        }
    }
}

#[test]
fn texts_that_are_no_dates() {
    let mut files = Files::fixed("no dates");
    #[rustfmt::skip]
    let texts = [
        "", "0", "2000", "20250101", "2025-0101", "202501-01", "2025-1-01", "2025-01-1", "25-01-01",
        "025-01-01", "02025-01-01", "2025-001-01", "2025-01-001", "2025/01/01", "2025.01.01",
        "2025 01 01", "2025-01/01", "2025_01_01", "2025-01-01 ", " 2025-01-01", "2025-01-01-",
        "-2025-01-01", "+025-01-01", "-025-01-01", "2025--1-01", "2025-01--1", "2025-+1-01", "202x-01-01",
        "2025-0x-01", "2025-01-x1", "2025-01-0:", "/025-01-01", "2025:01:01", "01-01-2025", "2025-01",
        "2025-01-", "2025-Jan-01", "2025-01-01T00:00", "----------", "1e10-01-01", "YYYY-MM-DD",
    ];
    for text in texts {
        for field in [text.to_string(), format!("\"{text}\"")] {
            let what = format_args!("{field}");
            let date = with_field(PRINTED[0], 1, field.as_bytes());
            files.refused(&File::of(&date), (21, 0), what);
            let maturity = after_date(with_field(PRINTED[1], 4, field.as_bytes()));
            files.refused(&File::of(&maturity), (21, 1), what);
        }
    }
}

#[test]
fn fields_that_must_be_empty() {
    let mut files = Files::fixed("fields that must be empty");
    for at in 4..FIELDS {
        must_be_empty(&mut files, PRINTED[4], at, 1);
    }
    for at in 3..FIELDS {
        must_be_empty(&mut files, PRINTED[0], at, 0);
    }
}

/// The text of a file that ends with a record of this number, 0 for the head alone and 1 for what comes after it.
fn ending_with(record: Vec<u8>, number: usize) -> Vec<u8> {
    match number {
        0 => record,
        _ => after_date(record),
    }
}

/// A field of a record that is a file of its own, or the last of one.
fn must_be_empty(files: &mut Files, record: &str, at: usize, number: usize) {
    let file = |field: &str| {
        let record = with_field(record, at, field.as_bytes());
        File::exact(&ending_with(record, number), 0, number)
    };
    let read = files.compare(&file("\"\""), format_args!("quotes {at}"));
    assert_eq!(read.number, 0);
    for text in [
        "0", " ", "\"0\"", "\" \"", "\"\"\"\"", "\",\"", "\"\r\n\"", "P",
    ] {
        let what = format_args!("{text:?} as field {at}");
        files.refused(&file(text), (21, number as u64), what);
    }
}

#[test]
fn a_doubled_quote_is_never_a_value() {
    let mut files = Files::fixed("doubled quotes");
    for (record, number) in [(PRINTED[0], 0), (PRINTED[1], 1), (PRINTED[4], 1)] {
        let place = number as u64;
        for at in 0..FIELDS {
            let field = record.split(',').nth(at).expect("all fields");
            for text in [
                "\"\"\"\"".to_string(),
                format!("\"{field}\"\"\""),
                format!("\"\"\"{field}\""),
                format!("\"\"\"{field}\"\"\""),
            ] {
                let text = ending_with(with_field(record, at, text.as_bytes()), number);
                files.refused(
                    &File::of(&text),
                    (21, place),
                    format_args!("{record}, field {at}"),
                );
            }
            for text in [
                format!("\"{field}\"\""),
                format!("\"\"{field}x"),
                format!("{field}x\"\""),
                format!("\"{field}\" "),
                format!("\"{field}"),
                format!("x\"{field}\""),
            ] {
                let text = ending_with(with_field(record, at, text.as_bytes()), number);
                files.refused(
                    &File::of(&text),
                    (19, place),
                    format_args!("{record}, field {at}"),
                );
            }
        }
    }
}

#[test]
fn a_line_end_in_quotes_ends_no_record() {
    let mut files = Files::fixed("line ends in quotes");
    for (at, field) in [(0, "2025-01-01"), (1, "2030-06-24"), (4, "600000")] {
        let mut records = PRINTED.map(str::to_string);
        records[at] = records[at].replace(field, &format!("\"{field}\r\n\""));
        let text = joined(&records);
        files.refused(&File::of(&text), (21, at as u64), format_args!("at {at}"));
    }
    // A later fault is counted in records and not in lines.
    let many = of_width("\"\r\n\r\n\r\n\",1,2,3,4,5,6,7", FIELDS);
    files.refused(
        &File::of(&joined(&[&many, PRINTED[1]])),
        (21, 0),
        format_args!("three line ends"),
    );
    let second = quoted_at(&holding("L,C,CA,2030-06-24,1,0"), &[0, 1]);
    files.refused(
        &File::of(&joined(&[PRINTED[0], &second, "\"a\r\nb\""])),
        (20, 2),
        format_args!("a field of two lines"),
    );
}
