//! The limits: 65,536 bytes, 256 holdings and 512 lines, and what competes with them.

use super::List;
use super::sound::records;
use crate::texts::{PRINTED, holding, joined, line, of_width};
use crate::{FIELDS, MOST_BYTES};

/// A holding and a line, by their fields, of which a file has many.
const HOLDING: &str = "L,B,CA,2025-01-02,1,0";
const LINE: &str = "0,1,1";

/// Title, holdings, lines, a record in another's place, and what is printed.
type Order = (&'static str, usize, usize, (usize, String), &'static str);

/// Holdings and lines, and what is printed.
const COUNTS: [(usize, usize, &str); 6] = [
    (256, 0, "M,1024,1"),
    (257, 0, "X,3,0,0"),
    (257, 513, "X,3,0,0"),
    (2, 512, "X,12,0,0"),
    (0, 512, "X,11,0,0"),
    (0, 513, "X,9,0,0"),
];

pub(super) fn add(list: &mut List) {
    lengths(list);
    for (holdings, lines, first) in COUNTS {
        let title = format!("{holdings} holdings and {lines} lines");
        list.add(title, joined(&many(holdings, lines)), first);
    }
    list.add(
        "256 holdings paired by 512 lines",
        joined(&paired(512)),
        "M,0,0",
    );
    list.add(
        "256 holdings paired by 513 lines",
        joined(&paired(513)),
        "X,9,0,0",
    );
    let mut last = paired(512);
    last[768] = line("254,255,26");
    list.add("15 at the last of 512 lines", joined(&last), "X,15,511,0");
    for (title, holdings, lines, (at, record), first) in orders() {
        let mut records = many(holdings, lines);
        records[at] = record;
        list.add(title, joined(&records), first);
    }
}

/// What competes with the limits.
#[rustfmt::skip]
fn orders() -> [Order; 14] {
    let good = || holding(HOLDING);
    let matured = || holding("L,B,CA,2025-01-01,1,0");
    let quote = || "\"".to_string();
    let date = || PRINTED[0].to_string();
    [
        ("19 in the 257th holding", 258, 0, (257, holding("L,B,CA,2025-01-02,1,\"")), "X,19,257,0"),
        ("20 in the 257th holding", 258, 0, (257, of_width(&good(), FIELDS - 1)), "X,20,257,0"),
        ("21 in the 257th holding", 258, 0, (257, holding("L,B,CA,2025-01-02,1,00")), "X,21,257,0"),
        ("a 257th holding before an ill-formed record", 258, 0, (258, quote()), "X,3,0,0"),
        ("an ill-formed record before the 257th holding", 257, 0, (256, quote()), "X,19,256,0"),
        ("a 257th holding after a line", 256, 2, (258, good()), "X,22,258,0"),
        ("a 257th holding before a second date", 258, 0, (258, date()), "X,3,0,0"),
        ("a second date in the place of the 257th holding", 257, 0, (257, date()), "X,22,257,0"),
        ("a 513th line before an ill-formed record", 3, 514, (517, quote()), "X,9,0,0"),
        ("21 in the 513th line", 3, 513, (516, line("0,1,")), "X,21,516,0"),
        ("a holding in the place of the 513th line", 3, 513, (516, good()), "X,22,516,0"),
        ("3 before 7 of holding 0", 257, 0, (1, matured()), "X,3,0,0"),
        ("9 before 7 of holding 0", 1, 513, (1, matured()), "X,9,0,0"),
        ("7 of the 256th holding", 256, 1, (256, matured()), "X,7,255,0"),
    ]
}

/// No file of 65,536 bytes is accepted: what is read has at most 48,424.
fn lengths(list: &mut List) {
    let (sound, price) = (joined(&records()), holding("L,C,CA,2025-01-02,1,#"));
    let (before, after) = price.split_once('#').expect("the mark of the digits");
    for (title, begin, fill, end, first) in [
        ("commas", &b""[..], b',', "", "X,20,0,0"),
        (
            "the sound file and one long field",
            &sound,
            b'x',
            "",
            "X,20,11,0",
        ),
        ("NULs", b"", 0, "", "X,19,0,0"),
        (
            "a price of many digits",
            before.as_bytes(),
            b'1',
            after,
            "X,21,0,0",
        ),
        ("a quote that never closes", b"\"", b'\n', "", "X,19,0,0"),
    ] {
        for (length, first) in [(MOST_BYTES, first), (MOST_BYTES + 1, "X,18,0,0")] {
            let mut text = begin.to_vec();
            text.resize(length - end.len(), fill);
            text.extend(end.as_bytes());
            list.add(format!("{length} bytes: {title}"), text, first);
        }
    }
}

fn many(holdings: usize, lines: usize) -> Vec<String> {
    let mut records = vec![PRINTED[0].to_string()];
    records.resize(1 + holdings, holding(HOLDING));
    records.resize(1 + holdings + lines, line(LINE));
    records
}

/// 256 ON coupons, every second one short; each long paired with the next by four lines.
fn paired(lines: usize) -> Vec<String> {
    let mut records = vec![PRINTED[0].to_string()];
    for number in 0..256 {
        let side = ["L", "S"][number % 2];
        records.push(holding(&format!("{side},C,ON,2030-06-24,100,8760")));
    }
    for number in 0..lines {
        let long = number / 4 * 2;
        records.push(line(&format!("{long},{},25", long + 1)));
    }
    records
}
