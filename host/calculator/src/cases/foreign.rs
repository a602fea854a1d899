//! Document 02 a): holdings in foreign currencies, of US and of GB, and what of them may be paired.

use super::List;
use crate::texts::{PRINTED, dated, holding_in, joined, line};

/// A holding by its kind, issuer and maturity, and its currency.
type Leg = (&'static str, &'static str);

/// A long and a short of one cent with a line, the price of the long, and what is printed.
#[rustfmt::skip]
const PAIRS: [(Leg, Leg, u64, &str); 16] = [
    (("B,US,2030-06-24", "USD"), ("C,US,2030-06-24", "USD"), 5_840, "M,1460,1"),
    (("R,US,2046-11-27", "USD"), ("B,US,2038-09-10", "USD"), 11_680, "M,11680,1"),
    (("B,GB,2045-01-01", "GBP"), ("C,GB,2044-12-31", "GBP"), 11_680, "M,2920,1"),
    (("B,GB,2025-10-28", "GBP"), ("C,GB,2025-07-20", "GBP"), 2_400, "M,0,0"),
    (("C,CA,2030-06-24", "USD"), ("B,CA,2029-02-09", "USD"), 5_840, "M,1460,1"),
    (("B,US,2030-06-24", "GBP"), ("R,US,2030-06-24", "GBP"), 5_840, "M,1460,1"),
    (("C,US,2030-06-24", "USD"), ("R,US,2030-06-24", "USD"), 8_760, "X,13,0,0"),
    (("B,GB,2030-06-24", "GBP"), ("B,GB,2030-06-24", "GBP"), 5_840, "X,13,0,0"),
    (("B,US,2030-06-24", "USD"), ("C,GB,2030-06-24", "USD"), 5_840, "X,13,0,0"),
    (("B,US,2030-06-24", "USD"), ("C,US,2030-06-24", "GBP"), 5_840, "X,13,0,0"),
    (("B,CA,2030-06-24", "USD"), ("C,CA,2030-06-24", "CAD"), 5_840, "X,13,0,0"),
    (("B,ON,2030-06-24", "USD"), ("C,ON,2030-06-24", "USD"), 11_680, "X,13,0,0"),
    (("B,CA,2030-06-24", "GBP"), ("C,ON,2030-06-24", "GBP"), 5_840, "X,13,0,0"),
    (("B,US,2030-06-24", "CAD"), ("C,US,2030-06-24", "CAD"), 5_840, "X,13,0,0"),
    (("B,CA,2030-06-24", "CAD"), ("C,GB,2030-06-24", "CAD"), 5_840, "X,13,0,0"),
    (("B,US,2032-01-01", "USD"), ("C,US,2032-01-02", "USD"), 5_840, "X,13,0,0"),
];

/// What comes after the holdings of the printed file, which go by paragraph 2: a long and a short that go by
/// paragraph 4, and three that may be paired with nobody here.
const MORE: [(&str, &str); 5] = [
    ("USD", "L,B,US,2030-06-24,500000,0"),
    ("USD", "S,C,US,2030-06-24,400000,5840"),
    ("USD", "S,C,CA,2030-06-24,700000,0"),
    ("GBP", "L,B,ON,2030-06-24,100,0"),
    ("CAD", "L,C,GB,2030-06-24,200,0"),
];

/// What another record of the file of both paragraphs shows, where it stands, and what is printed.
#[rustfmt::skip]
const CHANGES: [(&str, usize, &str, &str); 4] = [
    ("a foreign pair uncovered", 5, "H,S,C,US,2030-06-24,400000,5839,USD,", "X,16,3,4"),
    ("a price on what is never paired", 8, "H,L,C,GB,2030-06-24,200,1,CAD,", "X,17,0,0"),
    ("too much of the foreign short", 11, "P,3,4,400001,,,,,", "X,15,2,0"),
    ("one paragraph's long with the other's short", 11, "P,0,4,100000,,,,,", "X,13,2,0"),
];

pub(super) fn add(list: &mut List) {
    for ((long, long_currency), (short, short_currency), price, first) in PAIRS {
        let records = [
            holding_in(long_currency, &format!("L,{long},1,{price}")),
            holding_in(short_currency, &format!("S,{short},1,0")),
            line("0,1,1"),
        ];
        let title = format!("{long} in {long_currency} with {short} in {short_currency}");
        list.add(title, dated(&records), first);
    }
    let records = both_paragraphs();
    // The printed file's units, then the pair, and what is left of each holding in turn.
    list.add("both paragraphs", joined(&records), "M,7228460000,49510");
    for (what, at, record, first) in CHANGES {
        let mut records = records.clone();
        records[at] = record.to_string();
        list.add(format!("both paragraphs, {what}"), joined(&records), first);
    }
}

fn both_paragraphs() -> Vec<String> {
    let (holdings, lines) = PRINTED.split_at(4);
    let mut records: Vec<String> = holdings.iter().map(|record| record.to_string()).collect();
    records.extend(MORE.map(|(currency, fields)| holding_in(currency, fields)));
    records.extend(lines.iter().map(|record| record.to_string()));
    records.push(line("3,4,400000"));
    records
}
