//! Fields: refusals 21 and 22, letters, codes, and numerals at their limits.

use super::List;
use super::sound::{Change, FIRST, records, with, with_fields};
use crate::texts::{dated, holding, holding_in, line};
use crate::{CURRENCIES, FIELDS, ISSUERS};

/// Letters that are none there, at the first, a middle and the last record.
const LETTERS: [Change; 16] = [
    (0, 0, "d"),
    (0, 0, "DD"),
    (0, 0, ""),
    (0, 0, "H"),
    (1, 0, "h"),
    (6, 0, "X"),
    (10, 0, "p"),
    (4, 0, ""),
    (4, 0, "HH"),
    (1, 0, "P"),
    (1, 0, "D"),
    (8, 0, "H"),
    (8, 0, "D"),
    (1, 1, "l"),
    (6, 1, "B"),
    (7, 2, "Z"),
];

/// Field, its name and its text in record 4, which is holding 3, or record 9, line 1; and what is printed.
#[rustfmt::skip]
const NUMERALS: [(usize, usize, &str, &str, &str); 20] = [
    (4, 5, "value", "00", "X,21,4,0"),
    (4, 5, "value", "+1", "X,21,4,0"),
    (4, 5, "value", "-1", "X,21,4,0"),
    (4, 5, "value", "999999999999", "X,8,3,0"),
    (4, 5, "value", "1000000000000", "X,21,4,0"),
    (4, 5, "value", "18446744073709552616", "X,21,4,0"),
    (4, 6, "price", "", "X,21,4,0"),
    (4, 6, "price", "007", "X,21,4,0"),
    (4, 6, "price", "999999", "X,10,3,0"),
    (4, 6, "price", "1000000", "X,21,4,0"),
    (4, 6, "price", "8760 ", "X,21,4,0"),
    (4, 6, "price", "876:", "X,21,4,0"),
    (9, 1, "long", "01", "X,21,9,0"),
    (9, 1, "long", "999999", "X,11,1,0"),
    (9, 1, "long", "1000000", "X,21,9,0"),
    (9, 2, "short", "0000004", "X,21,9,0"),
    (9, 2, "short", "", "X,21,9,0"),
    (9, 3, "amount", "00", "X,21,9,0"),
    (9, 3, "amount", "999999999999", "X,15,1,0"),
    (9, 3, "amount", "1000000000000", "X,21,9,0"),
];

pub(super) fn add(list: &mut List) {
    for (at, field, text) in LETTERS {
        let title = format!("21 at record {at}: '{text}' as field {field}");
        let file = with_fields(&[(at, field, text)]);
        list.add(title, file, format!("X,21,{at},0"));
    }
    issuers(list);
    currencies(list);
    for (at, field, name, text, first) in NUMERALS {
        let title = format!("'{text}' as {name}");
        list.add(title, with_fields(&[(at, field, text)]), first);
    }
    empty_fields(list);
    holdings_after_lines(list);
}

fn issuers(list: &mut List) {
    let all = ISSUERS.map(|issuer| holding(&format!("L,B,{issuer},2026-02-05,146000,0")));
    list.add("all thirteen issuers", dated(&all), "M,7034280000,48180");
    for issuer in ["YT", "NT", "NU", "on", "C", "ON ", "UK", ""] {
        let file = with_fields(&[(5, 3, issuer)]);
        list.add(format!("21: '{issuer}' as the issuer"), file, "X,21,5,0");
    }
}

fn currencies(list: &mut List) {
    let all = CURRENCIES.map(|currency| holding_in(currency, "L,B,CA,2026-02-05,146000,0"));
    list.add("all three currencies", dated(&all), "M,639480000,4380");
    for currency in ["EUR", "cad", "US", "USD ", ""] {
        let file = with_fields(&[(5, 7, currency)]);
        list.add(
            format!("21: '{currency}' as the currency"),
            file,
            "X,21,5,0",
        );
    }
}

fn empty_fields(list: &mut List) {
    for field in 3..FIELDS {
        let title = format!("21: field {field} of the head is filled");
        list.add(title, with_fields(&[(0, field, "0")]), "X,21,0,0");
    }
    for field in 4..FIELDS {
        let title = format!("21: field {field} of a line is filled");
        list.add(title, with_fields(&[(9, field, "0")]), "X,21,9,0");
    }
    for (text, first) in [(" ", "X,21,9,0"), ("\"\"\"\"", "X,21,9,0"), ("\"\"", FIRST)] {
        let title = format!("{text:?} where a field must be empty");
        list.add(title, with_fields(&[(9, 5, text)]), first);
    }
}

fn holdings_after_lines(list: &mut List) {
    let holding = &records()[1];
    let first = dated(&[&line("0,0,1"), holding]);
    list.add("22: H after P at record 2", first, "X,22,2,0");
    list.add(
        "22: H after P at record 9",
        with(&[(9, holding)]),
        "X,22,9,0",
    );
    let last = with(&[(10, holding)]);
    list.add("22: H after P at the last record", last, "X,22,10,0");
}
