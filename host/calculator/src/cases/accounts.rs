//! Document 02 e): the accounts of approved participants and of clients, their letters, and who may pair what.

use super::sound::{Change, FIRST, with, with_fields};
use super::{List, Table};
use crate::texts::{PRINTED, dated_for, line, rated_in};
use crate::{ACCOUNTS, FIELDS};

/// The LEI of a corporation, which stands as A in the tables.
const A: &str = "5493001KJTIIGC8Y1R12";

/// A holding by its kind, issuer and maturity, its currency and its rating.
type Leg = (&'static str, &'static str, &'static str);

/// A long and a short of one cent each; the price of the long, with a line, and what is printed for a participant and
/// for a client; and what is printed for each at prices of 0 without a line.
type Pair = (Leg, Leg, u64, [&'static str; 2], [&'static str; 2]);

#[rustfmt::skip]
const PAIRS: [Pair; 18] = [
    // Paragraph 4, for participants.
    (("B,US,2030-06-24", "USD", ""), ("C,US,2030-06-24", "USD", ""), 5_840, ["M,1460,1", "X,13,0,0"], ["X,16,0,1", "M,7300,1"]),
    (("R,US,2046-11-27", "USD", ""), ("B,US,2038-09-10", "USD", ""), 11_680, ["M,11680,1", "X,13,0,0"], ["X,16,0,1", "M,23360,1"]),
    (("B,GB,2045-01-01", "GBP", ""), ("C,GB,2044-12-31", "GBP", ""), 11_680, ["M,2920,1", "X,13,0,0"], ["X,16,0,1", "M,14600,1"]),
    (("C,CA,2030-06-24", "USD", ""), ("B,CA,2029-02-09", "USD", ""), 5_840, ["M,1460,1", "X,13,0,0"], ["X,16,0,1", "M,7300,1"]),
    (("B,US,2030-06-24", "GBP", ""), ("R,US,2030-06-24", "GBP", ""), 5_840, ["M,1460,1", "X,13,0,0"], ["X,16,0,1", "M,7300,1"]),
    // Paragraph 3, for participants.
    (("B,A,2030-06-24", "CAD", "Y"), ("C,A,2030-06-24", "CAD", "N"), 10_220, ["M,15330,1", "X,13,0,0"], ["X,16,0,1", "M,25550,1"]),
    (("R,A,2026-01-02", "CAD", "Y"), ("B,A,2028-01-01", "CAD", "Y"), 8_760, ["M,13140,1", "X,13,0,0"], ["X,16,0,1", "M,21900,1"]),
    (("C,A,2046-11-27", "CAD", "Y"), ("B,A,2046-11-27", "CAD", "Y"), 29_200, ["M,29200,1", "X,13,0,0"], ["X,16,0,1", "M,58400,1"]),
    // Paragraph 2, for both.
    (("C,ON,2030-06-24", "CAD", ""), ("R,QC,2030-06-24", "CAD", ""), 17_520, ["M,0,0"; 2], ["X,16,0,1"; 2]),
    (("C,CA,2030-06-24", "CAD", ""), ("R,ON,2030-06-24", "CAD", ""), 6_570, ["M,6570,1"; 2], ["X,16,0,1"; 2]),
    (("B,ON,2030-06-24", "CAD", ""), ("C,ON,2030-06-24", "CAD", ""), 11_680, ["M,2920,1"; 2], ["X,16,0,1"; 2]),
    (("B,CA,2030-06-24", "CAD", ""), ("C,CA,2030-06-24", "CAD", ""), 5_840, ["M,1460,1"; 2], ["X,16,0,1"; 2]),
    (("R,NB,2125-01-01", "CAD", ""), ("C,NL,2045-01-01", "CAD", ""), 43_800, ["M,0,0"; 2], ["X,16,0,1"; 2]),
    // No paragraph.
    (("B,CA,2030-06-24", "CAD", ""), ("B,CA,2030-06-24", "CAD", ""), 5_840, ["X,13,0,0"; 2], ["M,5840,1"; 2]),
    (("B,CA,2030-06-24", "CAD", ""), ("C,CA,2030-06-24", "USD", ""), 5_840, ["X,13,0,0"; 2], ["M,7300,1"; 2]),
    (("C,US,2030-06-24", "USD", ""), ("R,US,2030-06-24", "USD", ""), 8_760, ["X,13,0,0"; 2], ["M,8760,1"; 2]),
    (("B,ON,2030-06-24", "USD", ""), ("C,ON,2030-06-24", "USD", ""), 11_680, ["X,13,0,0"; 2], ["M,14600,1"; 2]),
    (("B,A,2030-06-24", "CAD", "N"), ("C,A,2030-06-24", "CAD", "Y"), 10_220, ["X,13,0,0"; 2], ["M,25550,1"; 2]),
];

/// What comes after the holdings of the printed file, which go by paragraph 2: a pair of paragraph 4 and one of
/// paragraph 3, each short at the price that a participant has for it.
const MORE: [Leg; 4] = [
    ("L,B,US,2030-06-24,500000,0", "USD", ""),
    ("S,C,US,2030-06-24,400000,5840", "USD", ""),
    ("L,B,A,2030-06-24,2000,0", "CAD", "Y"),
    ("S,C,A,2030-06-24,1000,10220", "CAD", "N"),
];

/// Texts that are no account's letter.
const OTHER_LETTERS: [&str; 20] = [
    "",
    "\"\"",
    " ",
    "p",
    "c",
    "\"p\"",
    "PC",
    "CP",
    "PP",
    " P",
    "P ",
    "\" C\"",
    "\"\"\"P\"\"\"",
    "0",
    "1",
    "2",
    "D",
    "H",
    "Y",
    "Client",
];

/// Faults of the sound file in a client's account.
#[rustfmt::skip]
const OF_A_CLIENT: Table<Change, 12> = [
    ("24 of the valuation date", &[(0, 1, "2025-02-29")], "X,24,0,0"),
    ("24 of a maturity", &[(3, 4, "2026-02-30")], "X,24,2,0"),
    ("7", &[(3, 4, "2025-01-01")], "X,7,2,0"),
    ("8", &[(3, 5, "0")], "X,8,2,0"),
    ("10", &[(3, 6, "43801")], "X,10,2,0"),
    ("11", &[(9, 1, "7")], "X,11,1,0"),
    ("12", &[(9, 2, "0")], "X,12,1,0"),
    ("13 of two periods", &[(9, 1, "6")], "X,13,1,0"),
    ("14", &[(9, 3, "0")], "X,14,1,0"),
    ("15", &[(9, 3, "1001")], "X,15,1,0"),
    ("16", &[(3, 6, "8759")], "X,16,2,3"),
    ("17", &[(7, 6, "1")], "X,17,0,0"),
];

/// Faults that compete with that of the letter: the earlier in the papers' order is named.
#[rustfmt::skip]
const ORDERS: Table<Change, 6> = [
    ("21 of the account before 24 of the valuation date", &[(0, 1, "2025-02-29"), (0, 2, "X")], "X,21,0,0"),
    ("21 of the account and of the valuation date", &[(0, 1, "2025-1-1"), (0, 2, "X")], "X,21,0,0"),
    ("21 of the account before 21 of the next record", &[(0, 2, "c"), (1, 1, "l")], "X,21,0,0"),
    ("21 of the account before 25 of the last holding", &[(0, 2, ""), (7, 8, "Y")], "X,21,0,0"),
    ("21 of the account before 7 of a holding", &[(0, 2, "p"), (3, 4, "2025-01-01")], "X,21,0,0"),
    ("25 of a holding of a client", &[(0, 2, "C"), (7, 8, "Y")], "X,25,7,0"),
];

/// Other records of the sound file.
#[rustfmt::skip]
const RECORDS: [(&str, usize, &str, &str); 7] = [
    ("19 of the head before 21 of the account", 0, "D,2025-01-01,X,,,,,,\t", "X,19,0,0"),
    ("20 of the head before 21 of the account", 0, "D,2025-01-01,X,,,,,,,", "X,20,0,0"),
    ("the account in the place of the valuation date", 0, "D,P,2025-01-01,,,,,,", "X,21,0,0"),
    ("the account before its letter", 0, "P,D,2025-01-01,,,,,,", "X,21,0,0"),
    ("22: another account at record 3", 3, "D,2025-01-01,C,,,,,,", "X,22,3,0"),
    ("22: the same account at record 3", 3, "D,2025-01-01,P,,,,,,", "X,22,3,0"),
    ("21: no account at record 3", 3, "D,2025-01-01,,,,,,,", "X,21,3,0"),
];

pub(super) fn add(list: &mut List) {
    for pair in PAIRS {
        paired_or_not(list, pair);
    }
    for account in ACCOUNTS {
        let title = format!("the empty book, {account}");
        list.add(title, dated_for::<&str>(account, &[]), "M,0,0");
    }
    the_printed_file(list);
    all_paragraphs(list);
    letters(list);
    for (what, changes, first) in OF_A_CLIENT {
        let changes = [&[(0, 2, "C")], changes].concat();
        list.add(format!("{what}, a client's"), with_fields(&changes), first);
    }
    for (title, changes, first) in ORDERS {
        list.add(title, with_fields(changes), first);
    }
    for (title, at, record, first) in RECORDS {
        list.add(title, with(&[(at, record)]), first);
    }
}

/// The record of a holding whose issuer may be A.
fn leg(side: &str, (fields, currency, rating): Leg, end: &str) -> String {
    let fields = fields.replace(",A,", &format!(",{A},"));
    rated_in(currency, rating, &format!("{side}{fields}{end}"))
}

fn paired_or_not(list: &mut List, (long, short, price, paired, alone): Pair) {
    let legs = |price| {
        [
            leg("L,", long, &format!(",1,{price}")),
            leg("S,", short, ",1,0"),
        ]
    };
    let name = |(fields, currency, rating): Leg| format!("{fields},{currency},{rating}");
    let names = [long, short].map(name).join(" with ");
    for (at, account) in ACCOUNTS.into_iter().enumerate() {
        let records = [&legs(price)[..], &[line("0,1,1")]].concat();
        let title = format!("{account}: {names}");
        list.add(title, dated_for(account, &records), paired[at]);
        let title = format!("{account}: {names}, no line");
        list.add(title, dated_for(account, &legs(0)), alone[at]);
    }
}

/// The printed file is all of paragraph 2.
fn the_printed_file(list: &mut List) {
    for (what, at, record, first) in [
        ("as it is", 1, PRINTED[1], "M,3285000000,22500"),
        (
            "third price 6569",
            3,
            "H,S,R,ON,2030-06-24,300000,6569,CAD,",
            "X,16,0,2",
        ),
        (
            "first price 1",
            1,
            "H,L,C,CA,2030-06-24,1000000,1,CAD,",
            "X,17,0,0",
        ),
        ("first amount 600001", 4, "P,0,1,600001,,,,,", "X,15,0,0"),
    ] {
        let mut records = PRINTED;
        records[at] = record;
        let title = format!("the printed file of a client, {what}");
        list.add(title, dated_for("C", &records[1..]), first);
    }
}

/// Paragraphs 2, 3 and 4 in one file: the lines of a participant and those of a client, at prices for either.
fn all_paragraphs(list: &mut List) {
    let (holdings, lines) = PRINTED[1..].split_at(3);
    let more = MORE.map(|other| leg("", other, ""));
    let [foreign, corporate] = ["3,4,400000", "5,6,1000"];
    for (what, account, priced, of_a_participant, first) in [
        // The printed file's units; 400,000 at 1,460 and 100,000 at 2,920; 1,000 at 15,330 and 1,000 at 10,220.
        (
            "a participant's",
            "P",
            true,
            &[foreign, corporate][..],
            "M,4186550000,28675",
        ),
        // 500,000 at 2,920 and 400,000 at 4,380; 2,000 at 10,220 and 1,000 at 15,330.
        ("a client's", "C", false, &[], "M,6532770000,44745"),
        (
            "a participant's lines",
            "C",
            true,
            &[foreign, corporate],
            "X,13,2,0",
        ),
        (
            "a line of the corporation",
            "C",
            false,
            &[corporate],
            "X,13,2,0",
        ),
        ("a participant's prices", "C", true, &[], "X,17,0,0"),
        ("a client's prices", "P", false, &[], "X,16,3,4"),
        ("13 before 14 of a line", "C", false, &["3,4,0"], "X,13,2,0"),
        (
            "13 before 15 of a line",
            "C",
            false,
            &["5,6,5000"],
            "X,13,2,0",
        ),
        ("12 before 13 of a line", "C", false, &["4,3,1"], "X,12,2,0"),
        ("13 before 16", "C", true, &["3,4,1"], "X,13,2,0"),
    ] {
        let mut records: Vec<String> = holdings.iter().map(|record| record.to_string()).collect();
        records.extend(more.clone().map(|record| match priced {
            true => record,
            false => record.replace(",5840,", ",0,").replace(",10220,", ",0,"),
        }));
        records.extend(lines.iter().map(|record| record.to_string()));
        records.extend(of_a_participant.iter().map(|fields| line(fields)));
        let title = format!("all paragraphs, {account}, {what}");
        list.add(title, dated_for(account, &records), first);
    }
}

fn letters(list: &mut List) {
    for text in ["P", "C", "\"P\"", "\"C\""] {
        let title = format!("{text} as the account");
        list.add(title, with_fields(&[(0, 2, text)]), FIRST);
    }
    for text in OTHER_LETTERS {
        let title = format!("21: '{text}' as the account");
        list.add(title, with_fields(&[(0, 2, text)]), "X,21,0,0");
    }
    for field in 3..FIELDS {
        let title = format!("21: the account in field {field}");
        let moved = with_fields(&[(0, 2, ""), (0, field, "C")]);
        list.add(title, moved, "X,21,0,0");
    }
}
