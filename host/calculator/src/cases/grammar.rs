//! RFC 4180's grammar: refusals 19 and 20, line ends, quotes and bytes that stand nowhere.

use super::List;
use super::sound::{FIRST, records, with, with_fields};
use crate::FIELDS;
use crate::texts::{PRINTED, holding, holding_in, joined, line, of_width, quoted, quoted_at};

/// Texts without a good record.
#[rustfmt::skip]
const ALONE: [(&str, &str, &str); 6] = [
    ("a lone CRLF", "\r\n", "X,20,0,0"),
    ("a lone CR", "\r", "X,19,0,0"),
    ("a lone LF", "\n", "X,19,0,0"),
    ("a quote alone", "\"", "X,19,0,0"),
    ("two quotes alone", "\"\"", "X,20,0,0"),
    ("three quotes alone", "\"\"\"", "X,19,0,0"),
];

/// Title, other records of the sound file, and what is printed.
type Order = (&'static str, Vec<(usize, String)>, &'static str);

/// Records of the sound file, and to how many fields they are cut or filled up.
const WIDTHS: [(usize, usize); 9] = [
    (0, FIELDS - 1),
    (0, FIELDS + 1),
    (1, FIELDS - 1),
    (6, FIELDS + 1),
    (9, FIELDS - 1),
    (9, FIELDS + 1),
    (10, 4),
    (0, 1),
    (10, 13),
];

/// How a number of fields or commas is written in a title.
const WORDS: [&str; 14] = [
    "no", "one", "two", "three", "four", "five", "six", "seven", "eight", "nine", "ten", "eleven",
    "twelve", "thirteen",
];

pub(super) fn add(list: &mut List) {
    alone(list);
    line_ends(list);
    let sound = records();
    let head = quoted_at(&sound[0], &[1, 2, 3, 7, 8]);
    let some = quoted_at(&sound[1], &[0, 2, 4, 6, 7, 8]);
    let empty = quoted_at(&sound[9], &[1, 4, 6, 7, 8]);
    list.add(
        "some fields in quotes",
        with(&[(0, head), (1, some), (9, empty)]),
        FIRST,
    );
    for (title, record, number) in at_record_4() {
        list.add(title, with(&[(4, record)]), format!("X,{number},4,0"));
    }
    bad_bytes(list);
    for (at, count) in WIDTHS {
        let noun = if count == 1 { "field" } else { "fields" };
        let title = format!("20 at record {at}: {} {noun}", WORDS[count]);
        let record = of_width(&sound[at], count);
        list.add(title, with(&[(at, record)]), format!("X,20,{at},0"));
    }
    for (title, changes, first) in orders() {
        list.add(title, with(&changes), first);
    }
}

fn alone(list: &mut List) {
    for (title, text, first) in ALONE {
        list.add(title, text, first);
    }
    let title = format!("{} commas", WORDS[FIELDS - 1]);
    list.add(title, of_width("", FIELDS), "X,21,0,0");
    let after_date = |record: String| [PRINTED[0], &record].join("\r\n");
    let in_quotes = after_date(quoted(&holding("L,C,CA,2025-01-02,1,0")));
    list.add("a closing quote that ends the file", in_quotes, "M,6,1");
    let open = after_date(holding_in("\"CAD", "L,C,CA,2025-01-02,1,0"));
    list.add("a quote at the end that never closes", open, "X,19,1,0");
}

fn line_ends(list: &mut List) {
    let sound = joined(&records());
    let length = sound.len();
    list.add("no last CRLF", &sound[..length - 2], FIRST);
    list.add("no last LF", &sound[..length - 1], "X,19,10,0");
    for at in [0, 1, 5, 11] {
        let mut records = records();
        records.insert(at, String::new());
        let title = format!("an empty line at record {at}");
        list.add(title, joined(&records), format!("X,20,{at},0"));
    }
    for (what, end) in [("LF", "\n"), ("CR", "\r"), ("CR CR LF", "\r\r\n")] {
        let title = format!("records that end with {what}");
        list.add(title, records().join(end), "X,19,0,0");
    }
}

/// Records that stand in the place of record 4 of the sound file, with the refusal there.
#[rustfmt::skip]
fn at_record_4() -> [(&'static str, String, u64); 20] {
    let maturity = |text| holding(&format!("S,C,ON,{text},1000,8760"));
    let price = |text| holding(&format!("S,C,ON,2030-06-24,1000,{text}"));
    let text = str::to_string;
    [
        ("a bare LF in a field", maturity("2030\n06-24"), 19),
        ("a bare CR in a field", maturity("2030\r06-24"), 19),
        ("a bare LF at the end of a record", maturity("2030-06-24") + "\n", 19),
        ("a quoted line end in a field", maturity("\"2030\r\n06-24\""), 21),
        ("a quoted comma in a field", maturity("\"2030,06-24\""), 21),
        ("a quoted CR in a field", maturity("\"2030-06-24\r\""), 21),
        ("a quoted LF in a field", maturity("\"\n2030-06-24\""), 21),
        ("a doubled quote in a field", maturity("\"2030-\"\"06-24\""), 21),
        ("a field of one doubled quote", maturity("\"\"\"\""), 21),
        ("a quote in a field without quotes", maturity("2030\"-06-24"), 19),
        ("text after a closing quote", maturity("\"2030-06-24\"0"), 19),
        ("a space after a closing quote", maturity("\"2030-06-24\" "), 19),
        ("a space before an opening quote", maturity(" \"2030-06-24\""), 19),
        ("a quote that never closes", price("\"8760"), 19),
        ("a quote that closes in the next record", price("\"8760\r\n\""), 21),
        ("19 before 20 of a record", text("H,S,C\t"), 19),
        ("19 at the end of ten fields", text("H,S,C,ON,1,1,0,,,\x7F"), 19),
        ("19 before 21 of a record", text("h,S,C,ON,007,1,\""), 19),
        ("20 before 21 of a record", text("x,y"), 20),
        ("a field of two lines and nothing else", text("\"H\r\nS\""), 20),
    ]
}

/// Faults of records that compete.
#[rustfmt::skip]
fn orders() -> [Order; 11] {
    let good = || holding("L,C,ON,2030-06-24,1000,8760");
    let maturity = |text| holding(&format!("L,C,ON,{text},1,0"));
    let empty = |letter| of_width(letter, FIELDS);
    let text = str::to_string;
    [
        ("19 before 22 of a record", vec![(10, holding("S,C,ON,2030-06-24,1000,0\""))], "X,19,10,0"),
        ("20 before 22 of a record", vec![(10, of_width(&good(), FIELDS - 1))], "X,20,10,0"),
        ("21 before 22 of a record", vec![(10, holding("L,C,ON,2030-06-24,1000,00"))], "X,21,10,0"),
        ("20 of a record before 19 of the next", vec![(3, text("H")), (4, text("\""))], "X,20,3,0"),
        ("21 of a record before 19 of the next", vec![(3, empty("H")), (4, text("\""))], "X,21,3,0"),
        ("21 of a record before 20 of the next", vec![(0, empty("D")), (1, text("H"))], "X,21,0,0"),
        ("22 of a record before 19 of the next", vec![(9, good()), (10, text("\""))], "X,22,9,0"),
        ("22 of a record before 21 of the next", vec![(9, good()), (10, empty("P"))], "X,22,9,0"),
        ("records are counted, not lines", vec![(4, text("\"\r\n\r\n\",1")), (5, text("\t"))], "X,20,4,0"),
        ("19 of the last record before 7", vec![(1, maturity("2025-01-01")), (10, line("2,5,1") + "\"")], "X,19,10,0"),
        ("21 of the last record before 16", vec![(1, maturity("2025-01-10")), (10, line("2,5,1") + "0")], "X,21,10,0"),
    ]
}

fn bad_bytes(list: &mut List) {
    for (name, byte) in [("NUL", 0), ("TAB", 9), ("DEL", 127), ("128", 128)] {
        for (place, quote) in [("outside", ""), ("inside", "\"")] {
            let mut text = with_fields(&[(3, 4, &format!("{quote}2030-06-24#{quote}"))]);
            let mark = text.iter().position(|byte| *byte == b'#');
            text[mark.expect("the mark of the byte")] = byte;
            list.add(format!("{name} {place} quotes"), text, "X,19,3,0");
        }
    }
    let sound = joined(&records());
    let marked = [b"\xEF\xBB\xBF", &sound[..]].concat();
    list.add("a byte order mark before the file", marked, "X,19,0,0");
    let ended = [&sound[..], b"\x1A"].concat();
    list.add("a bad byte after the last CRLF", ended, "X,19,11,0");
    let mut text = joined(&records()[..1]);
    text.extend((0x20..=0x7E).filter(|byte| !b"\",".contains(byte)));
    list.add("every byte of TEXTDATA in one field", text, "X,20,1,0");
}
