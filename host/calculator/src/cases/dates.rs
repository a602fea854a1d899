//! Document 02 b): valuation dates and maturities, terms by anniversaries, and the refusals of dates.

use super::List;
use super::sound::{FIRST, HOLDINGS, records, with_fields};
use crate::texts::{PRINTED, holding, joined, line, valued};

/// The valuation date, kind, issuer and maturity of a holding of one cent, and its rate.
#[rustfmt::skip]
const RATES: [(&str, &str, u64); 33] = [
    // A year to its anniversary has 365 or 366 days.
    ("2024-01-01", "B,CA,2025-01-01", 1_464),
    ("2024-01-01", "R,ON,2025-01-01", 4_392),
    ("2024-01-01", "B,ON,2025-01-02", 4_380),
    ("2024-02-28", "B,CA,2025-02-28", 1_464),
    ("2024-02-28", "B,ON,2025-03-01", 4_380),
    ("2024-03-01", "B,CA,2025-03-01", 1_460),
    ("2023-02-28", "B,ON,2024-02-28", 2_920),
    ("2023-12-31", "C,CA,2024-12-31", 2_196),
    // A leap day has its anniversary on 28 February where there is no other.
    ("2024-02-29", "B,ON,2025-02-28", 2_920),
    ("2024-02-29", "B,ON,2025-03-01", 4_380),
    ("2024-02-29", "B,ON,2027-02-28", 4_380),
    ("2024-02-29", "B,ON,2027-03-01", 5_840),
    ("2024-02-29", "B,ON,2031-02-28", 5_840),
    ("2024-02-29", "B,ON,2031-03-01", 7_300),
    ("2024-02-29", "C,CA,2044-02-28", 8_760),
    ("2024-02-29", "C,CA,2044-02-29", 17_520),
    ("2080-02-29", "C,CA,2100-02-27", 8_760),
    ("2080-02-29", "C,CA,2100-02-28", 17_520),
    ("2000-02-29", "C,CA,2100-02-28", 17_520),
    ("2024-02-29", "C,CA,2124-02-29", 17_520),
    // A maturity on a leap day is only compared with the anniversaries.
    ("2023-02-28", "B,ON,2024-02-29", 4_380),
    ("2023-03-01", "B,ON,2024-02-29", 2_920),
    ("2021-02-28", "B,ON,2024-02-29", 5_840),
    ("2021-03-01", "B,ON,2024-02-29", 4_380),
    // 1900 and 2100 have no leap day, 2000 has one.
    ("1900-02-28", "B,CA,1900-03-01", 4),
    ("2000-02-28", "B,CA,2000-03-01", 8),
    ("2100-02-28", "B,CA,2100-03-01", 4),
    ("1999-12-31", "B,CA,2000-12-31", 1_464),
    ("2099-12-31", "B,CA,2100-12-31", 1_460),
    // The ends of the calendar, where an anniversary past 2299 refuses nothing.
    ("1900-01-01", "C,CA,2000-01-01", 17_520),
    ("2299-12-30", "B,CA,2299-12-31", 4),
    ("2290-01-01", "C,ON,2299-12-31", 10_950),
    ("2250-06-15", "C,CA,2299-12-31", 17_520),
];

/// The valuation date and maturity of a holding that is not held, and the number.
#[rustfmt::skip]
const NOT_HELD: [(&str, &str, u64); 14] = [
    ("2025-01-01", "2024-12-31", 7),
    ("2024-02-29", "2024-02-29", 7),
    ("2299-12-31", "2299-12-31", 7),
    ("2000-02-29", "2100-03-01", 7),
    ("2024-02-29", "2124-03-01", 7),
    ("2024-02-28", "2124-02-29", 7),
    ("1900-01-01", "2000-01-02", 7),
    ("1900-01-01", "2299-12-31", 7),
    ("2299-12-31", "2300-01-01", 24),
    ("2250-06-15", "2300-01-01", 24),
    ("2080-01-01", "2100-02-29", 24),
    ("1900-01-01", "1900-02-29", 24),
    ("2024-01-01", "2024-04-31", 24),
    ("2024-01-01", "2024-02-30", 24),
];

/// A long and a short coupon of one maturity each, ON and one cent, with a line: what is printed.
const PAIRS: [(&str, &str, &str, &str); 5] = [
    ("2024-02-29", "2035-02-28", "2031-03-01", "M,0,0"),
    ("2024-02-29", "2035-02-28", "2035-03-01", "X,13,0,0"),
    ("2024-02-28", "2035-02-28", "2035-03-01", "X,13,0,0"),
    ("2024-03-01", "2035-02-28", "2035-03-01", "M,0,0"),
    ("2021-02-28", "2032-02-28", "2032-02-29", "X,13,0,0"),
];

/// Texts in the form of a date that are none.
const NO_DATES: [&str; 10] = [
    "2025-02-29",
    "2025-02-30",
    "2025-04-31",
    "2025-13-01",
    "2025-00-01",
    "2025-01-00",
    "2025-01-32",
    "1899-12-31",
    "2300-01-01",
    "0000-00-00",
];

/// Texts that are not in the form of a date.
const OTHER_FORMS: [&str; 12] = [
    "",
    "2030",
    "20300624",
    "2030-6-24",
    "2030-06-4",
    "30-06-24",
    "12030-06-24",
    "2030/06/24",
    "2030-06-24 ",
    "+030-06-24",
    "2030-0a-24",
    "24-06-2030",
];

pub(super) fn add(list: &mut List) {
    for (date, fields, rate) in RATES {
        let text = one_holding(date, &format!("L,{fields},1,0"));
        let title = format!("{fields} valued on {date}");
        list.add(title, text, format!("M,{rate},1"));
    }
    for (date, maturity, number) in NOT_HELD {
        let text = one_holding(date, &format!("S,C,CA,{maturity},1,0"));
        let title = format!("{number}: {maturity} valued on {date}");
        list.add(title, text, format!("X,{number},0,0"));
    }
    for (date, long, short, first) in PAIRS {
        let records = [
            valued(date),
            holding(&format!("L,C,ON,{long},1,21900")),
            holding(&format!("S,R,ON,{short},1,0")),
            line("0,1,1"),
        ];
        let title = format!("{long} with {short}, valued on {date}");
        list.add(title, joined(&records), first);
    }
    texts(list);
    orders(list);
}

fn one_holding(date: &str, fields: &str) -> Vec<u8> {
    joined(&[valued(date), holding(fields)])
}

fn texts(list: &mut List) {
    // Record 5 is holding 4.
    for text in NO_DATES {
        let title = format!("24: '{text}' as the valuation date");
        list.add(title, with_fields(&[(0, 1, text)]), "X,24,0,0");
        let title = format!("24: '{text}' as a maturity");
        list.add(title, with_fields(&[(5, 4, text)]), "X,24,4,0");
    }
    for text in OTHER_FORMS {
        let title = format!("21: '{text}' as the valuation date");
        list.add(title, with_fields(&[(0, 1, text)]), "X,21,0,0");
        let title = format!("21: '{text}' as a maturity");
        list.add(title, with_fields(&[(5, 4, text)]), "X,21,5,0");
    }
    let in_quotes = [(0, 1, "\"2025-01-01\""), (5, 4, "\"2030-06-24\"")];
    list.add("dates in quotes", with_fields(&in_quotes), FIRST);
    let other = [(0, 1, "2024-12-31")];
    list.add("valued a day earlier", with_fields(&other), FIRST);
}

fn orders(list: &mut List) {
    let sound = records();
    list.add("an empty file", "", "X,22,0,0");
    list.add("22: no date before H", joined(&sound[1..]), "X,22,0,0");
    let lines = joined(&sound[1 + HOLDINGS..]);
    list.add("22: no date before P", lines, "X,22,0,0");
    for at in [1, 4, 1 + HOLDINGS, sound.len()] {
        let mut records = sound.clone();
        records.insert(at, PRINTED[0].to_string());
        let title = format!("22: another date at record {at}");
        list.add(title, joined(&records), format!("X,22,{at},0"));
    }
    let late = [&sound[1..], &sound[..1]].concat();
    list.add("22: the date last", joined(&late), "X,22,0,0");
    for (title, at, record, first) in [
        (
            "19 of a first record that is no date",
            0,
            "H,\"",
            "X,19,0,0",
        ),
        ("20 of a first record that is no date", 0, "H,L", "X,20,0,0"),
        (
            "21 of a first record that is no date",
            0,
            "H,,,,,,,,",
            "X,21,0,0",
        ),
        (
            "19 of another date",
            3,
            "D,2025-01-01,P,,,,,,\"",
            "X,19,3,0",
        ),
        ("20 of another date", 3, "D,2025-01-01,P,,,,,", "X,20,3,0"),
        ("21 of another date", 3, "D,2025-01-1,P,,,,,,", "X,21,3,0"),
        (
            "22 of another date that is none",
            3,
            "D,2025-01-99,P,,,,,,",
            "X,22,3,0",
        ),
    ] {
        let mut records = sound.clone();
        records[at] = record.to_string();
        list.add(title, joined(&records), first);
    }
    let unread = [(0, 1, "2025-02-29"), (10, 3, "00")];
    let title = "21 of the last record before 24";
    list.add(title, with_fields(&unread), "X,21,10,0");
}
