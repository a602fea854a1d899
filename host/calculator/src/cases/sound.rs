//! A file that is accepted, to plant faults in.

use crate::texts::{PRINTED, holding, joined, line};

/// Its first printed line: the lone bond of 500 cents at 5 per cent.
pub(super) const FIRST: &str = "M,3650000,25";
/// Its holdings, which come after its date; the rest are lines.
pub(super) const HOLDINGS: usize = 7;
/// The record of its first holding, and that of its first line.
pub(super) const FIRST_HOLDING: usize = 1;
pub(super) const FIRST_LINE: usize = FIRST_HOLDING + HOLDINGS;

/// Three longs and three shorts, ON coupons of one maturity, paired one with one; and a long bond in a
/// period of its own, which may be paired with nobody.
const BOOK: [&str; HOLDINGS] = [
    "L,C,ON,2030-06-24,1000,8760",
    "L,C,ON,2030-06-24,1000,8760",
    "L,C,ON,2030-06-24,1000,8760",
    "S,C,ON,2030-06-24,1000,8760",
    "S,C,ON,2030-06-24,1000,8760",
    "S,C,ON,2030-06-24,1000,8760",
    "L,B,ON,2033-03-20,500,0",
];
const LINES: [&str; 3] = ["0,3,1000", "1,4,1000", "2,5,1000"];

/// A record, a field of it, and its new text.
pub(super) type Change = (usize, usize, &'static str);

/// Its records.
pub(super) fn records() -> Vec<String> {
    let mut records = vec![PRINTED[0].to_string()];
    records.extend(BOOK.map(holding));
    records.extend(LINES.map(line));
    records
}

/// The file with other records at some places.
pub(super) fn with<T: AsRef<str>>(changes: &[(usize, T)]) -> Vec<u8> {
    let mut records = records();
    for (at, record) in changes {
        records[*at] = record.as_ref().to_string();
    }
    joined(&records)
}

/// The file with other texts for some fields.
pub(super) fn with_fields(changes: &[(usize, usize, &str)]) -> Vec<u8> {
    let mut records = records();
    for (at, field, text) in changes {
        let mut fields: Vec<&str> = records[*at].split(',').collect();
        fields[*field] = text;
        records[*at] = fields.join(",");
    }
    joined(&records)
}
