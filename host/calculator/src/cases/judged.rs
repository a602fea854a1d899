//! Files that are read and that the check refuses: 7, 8, 10 to 17 and 24, alone and competing.

use super::sound::{Change, FIRST, FIRST_HOLDING, FIRST_LINE, HOLDINGS, records, with_fields};
use super::{List, Table};
use crate::texts::{file, joined, quoted};

/// Number, field, and what the first, a middle and the last holding have there.
const HOLDING_FAULTS: [(u64, usize, [&str; 3]); 4] = [
    (24, 4, ["2026-02-29", "1899-12-31", "2300-01-01"]),
    (7, 4, ["2025-01-01", "2125-01-02", "1900-01-01"]),
    (8, 5, ["0", "100000000001", "999999999999"]),
    (10, 6, ["43801", "999999", "100000"]),
];

/// A field and its text in the first, the middle and the last line.
type FirstMiddleLast = [(usize, &'static str); 3];

/// Number, what is wrong, and where.
#[rustfmt::skip]
const LINE_FAULTS: [(u64, &str, FirstMiddleLast); 5] = [
    (11, "not in the book", [(1, "7"), (2, "999999"), (1, "256")]),
    (12, "a short first or a long second", [(1, "3"), (2, "0"), (2, "6")]),
    (13, "another period", [(1, "6"), (1, "6"), (1, "6")]),
    (14, "amount 0", [(3, "0"), (3, "0"), (3, "0")]),
    (15, "amount too large", [(3, "1001"), (3, "2000"), (3, "999999999999")]),
];

/// 15 against what the lines before have left of either leg.
#[rustfmt::skip]
const AMOUNTS: Table<Change, 4> = [
    ("two lines take a long whole", &[(8, 3, "600"), (9, 1, "0"), (9, 3, "400")], "X,17,0,0"),
    ("two lines take too much of a long", &[(8, 3, "600"), (9, 1, "0"), (9, 3, "401")], "X,15,1,0"),
    ("two lines take too much of a short", &[(8, 3, "600"), (9, 2, "3"), (9, 3, "401")], "X,15,1,0"),
    ("nothing is left for the last line", &[(10, 1, "0"), (10, 2, "5"), (10, 3, "1")], "X,15,2,0"),
];

/// Holdings with a price of one unit less than the sound one, and the pair that is named.
const UNCOVERED: [(&[usize], &str); 6] = [
    (&[0], "X,16,0,3"),
    (&[2], "X,16,2,3"),
    (&[5], "X,16,0,5"),
    (&[5, 4], "X,16,0,4"),
    (&[1, 5], "X,16,0,5"),
    (&[2, 1], "X,16,1,3"),
];

#[rustfmt::skip]
const PRICES: Table<Change, 4> = [
    ("16 at 1, 5", &[(2, 6, "8759"), (4, 6, "8761"), (5, 6, "8761")], "X,16,1,5"),
    ("17: the lone bond has a price", &[(7, 6, "1")], "X,17,0,0"),
    ("17: a price too high by one", &[(1, 6, "8761")], "X,17,0,0"),
    ("17: the last amount one cent less", &[(10, 3, "999")], "X,17,0,0"),
];

/// Faults that compete: the earlier in the paper's order is named.
#[rustfmt::skip]
const ORDERS: Table<Change, 20> = [
    ("24 of the valuation date before 7 of holding 0", &[(0, 1, "2025-02-29"), (1, 4, "2025-01-01")], "X,24,0,0"),
    ("24 of the valuation date before 24 of holding 2", &[(0, 1, "2025-00-01"), (3, 4, "2025-00-01")], "X,24,0,0"),
    ("24 before 7 of a holding", &[(3, 4, "2024-02-30")], "X,24,2,0"),
    ("24 before 8 of a holding", &[(3, 4, "2026-02-30"), (3, 5, "0")], "X,24,2,0"),
    ("10 of a holding before 24 of the next", &[(3, 6, "43801"), (4, 4, "2026-02-30")], "X,10,2,0"),
    ("24 of the last holding before 11 of line 0", &[(7, 4, "2026-02-30"), (8, 1, "9")], "X,24,6,0"),
    ("7 before 8 of a holding", &[(3, 4, "2025-01-01"), (3, 5, "0")], "X,7,2,0"),
    ("7 before 10 of a holding", &[(3, 4, "2025-01-01"), (3, 6, "43801")], "X,7,2,0"),
    ("8 before 10 of a holding", &[(3, 5, "0"), (3, 6, "43801")], "X,8,2,0"),
    ("10 of a holding before 7 of the next", &[(3, 6, "43801"), (4, 4, "2025-01-01")], "X,10,2,0"),
    ("10 of the last holding before 11 of line 0", &[(7, 6, "43801"), (8, 1, "9")], "X,10,6,0"),
    ("11 before 12 of a line", &[(8, 1, "7"), (8, 2, "0")], "X,11,0,0"),
    ("11 of the second leg before 12 of the first", &[(8, 1, "3"), (8, 2, "7")], "X,11,0,0"),
    ("12 before 13 of a line", &[(9, 1, "3"), (9, 2, "6")], "X,12,1,0"),
    ("13 before 14 of a line", &[(9, 1, "6"), (9, 3, "0")], "X,13,1,0"),
    ("13 before 15 of a line", &[(9, 1, "6"), (9, 3, "5000")], "X,13,1,0"),
    ("15 of a line before 11 of the next", &[(8, 3, "1001"), (9, 1, "9")], "X,15,0,0"),
    ("15 of the last line before 16", &[(10, 3, "1001"), (1, 6, "0")], "X,15,2,0"),
    ("14 of the last line before 17", &[(10, 3, "0"), (7, 6, "1")], "X,14,2,0"),
    ("16 before 17", &[(3, 6, "8759"), (7, 6, "1")], "X,16,2,3"),
];

pub(super) fn add(list: &mut List) {
    let sound = records();
    list.add("the sound file", joined(&sound), FIRST);
    let in_quotes: Vec<String> = sound.iter().map(|record| quoted(record)).collect();
    list.add("the sound file in quotes", joined(&in_quotes), FIRST);
    for (number, field, texts) in HOLDING_FAULTS {
        for (at, text) in [0, 3, HOLDINGS - 1].into_iter().zip(texts) {
            let title = format!("{number} at holding {at}: {text}");
            let file = with_fields(&[(FIRST_HOLDING + at, field, text)]);
            list.add(title, file, format!("X,{number},{at},0"));
        }
    }
    for (number, what, changes) in LINE_FAULTS {
        for (line, (field, text)) in changes.into_iter().enumerate() {
            let title = format!("{number} at line {line}: {what}, {text}");
            let file = with_fields(&[(FIRST_LINE + line, field, text)]);
            list.add(title, file, format!("X,{number},{line},0"));
        }
    }
    list.add("a line without a book", file(&[], &["0,0,1"]), "X,11,0,0");
    for (lowered, first) in UNCOVERED {
        let lower = |at: &usize| (FIRST_HOLDING + at, 6, "8759");
        let changes: Vec<Change> = lowered.iter().map(lower).collect();
        let title = format!("one unit too little on holdings {lowered:?}");
        list.add(title, with_fields(&changes), first);
    }
    list.add("17: no line", joined(&sound[..FIRST_LINE]), "X,17,0,0");
    for (title, changes, first) in AMOUNTS.into_iter().chain(PRICES).chain(ORDERS) {
        list.add(title, with_fields(changes), first);
    }
}
