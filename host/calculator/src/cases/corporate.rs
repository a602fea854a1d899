//! Document 02 d): corporations by their LEIs, ratings, Group V's rates, the pairs of paragraph 3, and 25.

use super::sound::{Change, FIRST, FIRST_LINE, records, with, with_fields};
use super::{List, Table};
use crate::texts::{
    PRINTED, dated, holding, issuer_text, joined, line, quoted_at, rated, rated_in,
};
use crate::{FIELDS, ISSUERS};

/// The LEIs of two corporations, which stand as A and B in the tables.
const A: &str = "5493001KJTIIGC8Y1R12";
const B: &str = "7ZW8QJWVPR4P1J1KQY45";

/// A holding of one cent by its kind and maturity, and its rate.
const RATES: [(&str, u64); 20] = [
    ("B,A,2025-01-02", 4_380),
    ("C,A,2025-01-02", 6_570),
    ("B,A,2026-01-01", 4_380),
    ("R,A,2026-01-01", 6_570),
    ("B,A,2026-01-02", 8_760),
    ("C,A,2026-01-02", 13_140),
    ("B,A,2028-01-01", 8_760),
    ("R,A,2028-01-01", 13_140),
    ("B,A,2028-01-02", 10_220),
    ("C,A,2028-01-02", 15_330),
    ("R,A,2032-01-01", 15_330),
    ("B,A,2032-01-02", 14_600),
    ("C,A,2032-01-02", 21_900),
    ("R,A,2036-01-01", 21_900),
    ("B,A,2036-01-02", 14_600),
    ("C,A,2036-01-02", 21_900),
    ("R,A,2044-12-31", 21_900),
    ("B,A,2045-01-01", 14_600),
    ("C,A,2045-01-01", 43_800),
    ("R,A,2125-01-01", 43_800),
];

/// A holding by its kind, issuer and maturity, its currency and its rating.
type Leg = (&'static str, &'static str, &'static str);

/// A long and a short of one cent with a line, the price of the long, and what is printed.
#[rustfmt::skip]
const PAIRS: [(Leg, Leg, u64, &str); 36] = [
    (("B,A,2030-06-24", "CAD", "Y"), ("C,A,2030-06-24", "CAD", "Y"), 10_220, "M,15330,1"),
    (("R,A,2030-06-24", "CAD", "Y"), ("B,A,2030-06-24", "CAD", "Y"), 10_220, "M,15330,1"),
    (("B,B,2025-01-02", "CAD", "Y"), ("R,B,2026-01-01", "CAD", "Y"), 4_380, "M,6570,1"),
    (("C,A,2026-01-02", "CAD", "Y"), ("B,A,2028-01-01", "CAD", "Y"), 8_760, "M,13140,1"),
    (("B,A,2036-01-01", "CAD", "Y"), ("C,A,2032-01-02", "CAD", "Y"), 14_600, "M,21900,1"),
    // The rating of the strip does not matter.
    (("B,A,2030-06-24", "CAD", "Y"), ("R,A,2030-06-24", "CAD", "N"), 10_220, "M,15330,1"),
    (("C,A,2030-06-24", "CAD", "N"), ("B,A,2030-06-24", "CAD", "Y"), 10_220, "M,15330,1"),
    // The cap, for a strip from 20 years.
    (("C,A,2046-11-27", "CAD", "Y"), ("B,A,2046-11-27", "CAD", "Y"), 29_200, "M,29200,1"),
    (("B,A,2038-09-10", "CAD", "Y"), ("R,A,2046-11-27", "CAD", "N"), 29_200, "M,29200,1"),
    (("C,A,2045-01-01", "CAD", "Y"), ("B,A,2125-01-01", "CAD", "Y"), 29_200, "M,29200,1"),
    (("C,A,2044-12-31", "CAD", "Y"), ("B,A,2045-01-01", "CAD", "Y"), 14_600, "M,21900,1"),
    // Not covered by one unit.
    (("B,A,2030-06-24", "CAD", "Y"), ("R,A,2030-06-24", "CAD", "Y"), 10_219, "X,16,0,1"),
    (("C,A,2046-11-27", "CAD", "N"), ("B,A,2038-09-10", "CAD", "Y"), 29_199, "X,16,0,1"),
    // A bond that is not rated single A or higher.
    (("B,A,2030-06-24", "CAD", "N"), ("C,A,2030-06-24", "CAD", "N"), 10_220, "X,13,0,0"),
    (("B,A,2030-06-24", "CAD", "N"), ("C,A,2030-06-24", "CAD", "Y"), 10_220, "X,13,0,0"),
    (("R,A,2030-06-24", "CAD", "Y"), ("B,A,2030-06-24", "CAD", "N"), 10_220, "X,13,0,0"),
    // Another corporation.
    (("B,A,2030-06-24", "CAD", "Y"), ("C,B,2030-06-24", "CAD", "Y"), 10_220, "X,13,0,0"),
    (("C,A,2030-06-24", "CAD", "Y"), ("B,B,2030-06-24", "CAD", "Y"), 10_220, "X,13,0,0"),
    // Strip with strip and bond with bond.
    (("C,A,2030-06-24", "CAD", "Y"), ("R,A,2030-06-24", "CAD", "Y"), 15_330, "X,13,0,0"),
    (("C,A,2030-06-24", "CAD", "N"), ("C,A,2030-06-24", "CAD", "N"), 15_330, "X,13,0,0"),
    (("B,A,2030-06-24", "CAD", "Y"), ("B,A,2030-06-24", "CAD", "Y"), 10_220, "X,13,0,0"),
    // Another period.
    (("B,A,2026-01-01", "CAD", "Y"), ("C,A,2026-01-02", "CAD", "Y"), 10_220, "X,13,0,0"),
    (("C,A,2028-01-01", "CAD", "Y"), ("B,A,2028-01-02", "CAD", "Y"), 10_220, "X,13,0,0"),
    (("B,A,2032-01-01", "CAD", "Y"), ("R,A,2032-01-02", "CAD", "Y"), 10_220, "X,13,0,0"),
    (("B,A,2036-01-01", "CAD", "Y"), ("R,A,2036-01-02", "CAD", "Y"), 14_600, "X,13,0,0"),
    // A foreign currency on one leg or on both.
    (("B,A,2030-06-24", "USD", "Y"), ("C,A,2030-06-24", "USD", "Y"), 10_220, "X,13,0,0"),
    (("B,A,2030-06-24", "GBP", "Y"), ("C,A,2030-06-24", "GBP", "Y"), 10_220, "X,13,0,0"),
    (("B,A,2030-06-24", "CAD", "Y"), ("C,A,2030-06-24", "USD", "Y"), 10_220, "X,13,0,0"),
    (("C,A,2030-06-24", "CAD", "Y"), ("B,A,2030-06-24", "GBP", "Y"), 10_220, "X,13,0,0"),
    // A government.
    (("B,A,2030-06-24", "CAD", "Y"), ("C,CA,2030-06-24", "CAD", ""), 10_220, "X,13,0,0"),
    (("C,A,2030-06-24", "CAD", "Y"), ("B,CA,2030-06-24", "CAD", ""), 10_220, "X,13,0,0"),
    (("C,ON,2030-06-24", "CAD", ""), ("R,A,2030-06-24", "CAD", "Y"), 10_220, "X,13,0,0"),
    (("B,ON,2030-06-24", "CAD", ""), ("C,A,2030-06-24", "CAD", "Y"), 10_220, "X,13,0,0"),
    (("B,US,2030-06-24", "USD", ""), ("C,A,2030-06-24", "USD", "Y"), 10_220, "X,13,0,0"),
    (("C,A,2030-06-24", "GBP", "Y"), ("B,GB,2030-06-24", "GBP", ""), 10_220, "X,13,0,0"),
    (("C,US,2030-06-24", "CAD", ""), ("B,A,2030-06-24", "CAD", "Y"), 10_220, "X,13,0,0"),
];

/// Texts in the form of an LEI that are good, though the standard's check digits are others.
const OTHER_CHECK_DIGITS: [&str; 3] = [
    "00000000000000000001",
    "00000000000000006500",
    "00000000000000003299",
];

/// Two LEIs each that are good and alike but for a few characters.
const NEAR: [[&str; 2]; 3] = [
    ["00000000000000000001", "00000000000000000098"],
    ["5493001KJTIIGC8Y1R12", "6463001KJTIIGC8Y1R12"],
    ["5493001KJTIIGC8Y1R12", "5493001KJTDXGC8Y1R12"],
];

/// Texts in the form of an LEI with another remainder.
const OTHER_REMAINDERS: [&str; 9] = [
    "5493001KJTIIGC8Y1R13",
    "5493001KJTIIGC8Y1R21",
    "5493001KJTIIGC8Y1R00",
    "4593001KJTIIGC8Y1R12",
    "5493001KJTIIGC8YR112",
    "5493001KJTIIGC8Z1R12",
    "00000000000000000000",
    "00000000000000000097",
    "ZZZZZZZZZZZZZZZZZZ99",
];

/// Texts that are not in the form of an LEI.
const OTHER_FORMS: [&str; 11] = [
    "5493001KJTIIGC8Y1R1",
    "5493001KJTIIGC8Y1R123",
    "05493001KJTIIGC8Y1R12",
    "5493001kjtiigc8y1r12",
    "5493001KJTIIGC8Y1R1A",
    "5493001KJTIIGC8Y1RA2",
    "5493001KJTIIGC8Y1R12 ",
    " 493001KJTIIGC8Y1R12",
    "5493-01KJTIIGC8Y1R12",
    "LEI",
    "100",
];

/// Faults that compete in the sound file: the earlier in the papers' order is named.
#[rustfmt::skip]
const ORDERS: Table<Change, 9> = [
    ("21 of an earlier field before 25", &[(5, 8, "Y"), (5, 1, "l")], "X,21,5,0"),
    ("21 of a later field before 25", &[(5, 3, "5493001KJTIIGC8Y1R13"), (5, 8, "y")], "X,21,5,0"),
    ("21 of the price before 25", &[(5, 3, A), (5, 6, "00")], "X,21,5,0"),
    ("25 of a record before 21 of the next", &[(5, 8, "N"), (6, 1, "l")], "X,25,5,0"),
    ("21 of a record before 25 of the next", &[(5, 1, "l"), (6, 8, "N")], "X,21,5,0"),
    ("25 before 8 of an earlier holding", &[(1, 5, "0"), (7, 8, "Y")], "X,25,7,0"),
    ("25 before 24 of the valuation date", &[(0, 1, "2025-02-29"), (7, 8, "Y")], "X,25,7,0"),
    ("10 of a corporation", &[(7, 3, A), (7, 8, "Y"), (7, 6, "43801")], "X,10,6,0"),
    ("7 of a corporation", &[(7, 3, A), (7, 8, "Y"), (7, 4, "2025-01-01")], "X,7,6,0"),
];

pub(super) fn add(list: &mut List) {
    for (at, (fields, rate)) in RATES.into_iter().enumerate() {
        let (side, rating) = (["L", "S"][at % 2], ["Y", "N"][at / 2 % 2]);
        let currency = ["CAD", "USD", "GBP"][at % 3];
        let text = dated(&[leg(&format!("{side},{fields},1,0"), currency, rating)]);
        let title = format!("the rate of {side},{fields},{currency},{rating}");
        list.add(title, text, format!("M,{rate},1"));
    }
    for ((long, currency, rating), (short, other_currency, other_rating), price, first) in PAIRS {
        let records = [
            leg(&format!("L,{long},1,{price}"), currency, rating),
            leg(&format!("S,{short},1,0"), other_currency, other_rating),
            line("0,1,1"),
        ];
        let title = format!(
            "{long},{currency},{rating} with {short},{other_currency},{other_rating} at {price}"
        );
        list.add(title, dated(&records), first);
    }
    all_paragraphs(list);
    numbers(list);
    leis(list);
    ratings(list);
    orders(list);
}

/// The record of a holding whose issuer may be A or B.
fn leg(fields: &str, currency: &str, rating: &str) -> String {
    let mut fields: Vec<&str> = fields.split(',').collect();
    fields[2] = match fields[2] {
        "A" => A,
        "B" => B,
        government => government,
    };
    rated_in(currency, rating, &fields.join(","))
}

/// What comes after the holdings of the printed file: two pairs of one corporation, and what of it and of another
/// may be paired with nobody here.
const MORE: [Leg; 6] = [
    ("L,B,A,2046-11-27,5000,0", "CAD", "Y"),
    ("S,R,A,2046-11-27,4000,29200", "CAD", "N"),
    ("S,C,A,2038-09-10,3000,14600", "CAD", "Y"),
    ("L,B,A,2046-11-27,2000,0", "CAD", "Y"),
    ("L,B,A,2046-11-27,100,0", "CAD", "N"),
    ("L,B,B,2046-11-27,200,0", "CAD", "Y"),
];

/// Paragraphs 2 and 3 in one file.
fn all_paragraphs(list: &mut List) {
    let (before, lines) = PRINTED.split_at(4);
    let mut records: Vec<String> = before.iter().map(|record| record.to_string()).collect();
    records.extend(MORE.map(|(fields, currency, rating)| leg(fields, currency, rating)));
    records.extend(lines.iter().map(|record| record.to_string()));
    records.extend(["3,4,4000", "3,5,1000", "6,5,2000"].map(line));
    // The printed file's units; 4,000 at 29,200 and 3,000 at 21,900; 300 bonds alone at 14,600.
    list.add("paragraphs 2 and 3", joined(&records), "M,3471880000,23780");
    for (what, at, record, first) in [
        (
            "a pair of the corporation uncovered",
            5,
            leg("S,R,A,2046-11-27,4000,29199", "CAD", "N"),
            "X,16,3,4",
        ),
        (
            "a price on a bond of a lower rating",
            8,
            leg("L,B,A,2046-11-27,100,1", "CAD", "N"),
            "X,17,0,0",
        ),
        (
            "the bond of a lower rating in a line",
            12,
            line("7,4,100"),
            "X,13,2,0",
        ),
        (
            "the bond of the other corporation in a line",
            14,
            line("8,5,200"),
            "X,13,4,0",
        ),
        (
            "the government's strip in a line",
            12,
            line("3,1,100"),
            "X,13,2,0",
        ),
    ] {
        let mut records = records.clone();
        records[at] = record;
        let title = format!("paragraphs 2 and 3, {what}");
        list.add(title, joined(&records), first);
    }
}

/// Which LEIs are one corporation: a long bond and a short strip of one cent each, for which a price of 0 covers
/// only what may not be paired.
fn numbers(list: &mut List) {
    let bond = leg("L,B,A,2030-06-24,1,0", "CAD", "Y");
    let strip = |issuer: &str| rated("Y", &format!("S,C,{issuer},2030-06-24,1,0"));
    let near = issuer_text(101);
    for (what, short, first) in [
        ("the same LEI", strip(A), "X,16,0,1"),
        (
            "the same LEI in quotes",
            quoted_at(&strip(A), &[3]),
            "X,16,0,1",
        ),
        ("another LEI", strip(B), "M,25550,1"),
        ("an LEI of the samples", strip(&near), "M,25550,1"),
    ] {
        let title = format!("one corporation or two: {what}");
        list.add(title, dated(&[&bond, &short]), first);
    }
    // Good LEIs that differ in their check digits, in their first half and in their last half alone.
    for [one, other] in NEAR {
        let records = [("L,B", one), ("S,C", other)]
            .map(|(leg, issuer)| rated("Y", &format!("{leg},{issuer},2030-06-24,1,0")));
        let title = format!("{one} and {other} are two corporations");
        list.add(title, dated(&records), "M,25550,1");
    }
    // Bonds of all corporations that there may be, and the strip of the first, a middle one and the last.
    let bonds: Vec<String> = (100..355)
        .map(|number| rated("Y", &format!("L,B,{},2030-06-24,1,0", issuer_text(number))))
        .collect();
    for (number, first) in [
        (100, "X,16,0,255"),
        (227, "X,16,127,255"),
        (354, "X,16,254,255"),
    ] {
        let mut records = bonds.clone();
        records.push(strip(&issuer_text(number)));
        let title = format!("255 corporations, the strip of that with number {number}");
        list.add(title, dated(&records), first);
    }
    let mut all = bonds;
    all.push(strip(&issuer_text(355)));
    // 255 bonds at 10,220 and a strip at 15,330.
    list.add("256 corporations", dated(&all), "M,2621430,18");
}

fn leis(list: &mut List) {
    let long = |issuer: &str| rated("N", &format!("L,B,{issuer},2030-06-24,1,0"));
    for lei in OTHER_CHECK_DIGITS {
        let title = format!("{lei} is an LEI");
        list.add(title, dated(&[long(lei)]), "M,10220,1");
    }
    for text in OTHER_REMAINDERS {
        let title = format!("25: '{text}' as the issuer");
        list.add(title, dated(&[long(A), long(text)]), "X,25,2,0");
    }
    for text in OTHER_FORMS {
        let title = format!("21: '{text}' as the issuer");
        list.add(title, dated(&[long(A), long(text)]), "X,21,2,0");
    }
    // Record 0 is the date, and those from 1 to 7 are holdings.
    for at in [1, 4, 7] {
        let file = with_fields(&[(at, 3, "5493001KJTIIGC8Y1R13"), (at, 8, "Y")]);
        let title = format!("25 at record {at}: an LEI with another remainder");
        list.add(title, file, format!("X,25,{at},0"));
    }
}

fn ratings(list: &mut List) {
    let of =
        |issuer: &str, rating| dated(&[rated(rating, &format!("L,B,{issuer},2030-06-24,1,0"))]);
    for (issuer, name) in [(A, "A"), (B, "B")] {
        let title = format!("25: corporation {name} without a rating");
        list.add(title, of(issuer, ""), "X,25,1,0");
        let title = format!("25: corporation {name} with two quotes as the rating");
        list.add(title, of(issuer, "\"\""), "X,25,1,0");
    }
    for issuer in ISSUERS {
        for rating in ["Y", "N"] {
            let title = format!("25: {issuer} with rating {rating}");
            list.add(title, of(issuer, rating), "X,25,1,0");
        }
    }
    for rating in ["y", "n", "YN", "A", "0", " ", "Y "] {
        let title = format!("21: '{rating}' as the rating of a corporation");
        list.add(title, of(A, rating), "X,21,1,0");
        let title = format!("21: '{rating}' as the rating of a government");
        list.add(title, of("CA", rating), "X,21,1,0");
    }
    for (at, what) in [(0, "the head"), (9, "a line")] {
        for rating in ["Y", "N"] {
            let title = format!("21: {rating} as the last field of {what}");
            let file = with_fields(&[(at, FIELDS - 1, rating)]);
            list.add(title, file, format!("X,21,{at},0"));
        }
    }
    let in_quotes = with_fields(&[(7, 8, "\"\"")]);
    list.add(
        "a government with two quotes as the rating",
        in_quotes,
        FIRST,
    );
    for at in [1, 4, 7] {
        for (what, change) in [
            ("a government with a rating", (at, 8, "Y")),
            ("a corporation without a rating", (at, 3, A)),
        ] {
            let title = format!("25 at record {at}: {what}");
            list.add(title, with_fields(&[change]), format!("X,25,{at},0"));
        }
    }
}

fn orders(list: &mut List) {
    for (title, changes, first) in ORDERS {
        list.add(title, with_fields(changes), first);
    }
    let wrong = || rated("Y", "L,C,CA,2030-06-24,1,0");
    for (title, at, record, first) in [
        ("19 before 25 of a record", 4, wrong() + "\"", "X,19,4,0"),
        ("20 before 25 of a record", 4, wrong() + ",", "X,20,4,0"),
        (
            "25 before 22: H after P",
            FIRST_LINE + 2,
            wrong(),
            "X,25,10,0",
        ),
        ("25 before 22: no date", 0, wrong(), "X,25,0,0"),
    ] {
        list.add(title, with(&[(at, record)]), first);
    }
    let second = [records(), vec![PRINTED[0].to_string(), wrong()]].concat();
    list.add(
        "22 of a record before 25 of the next",
        joined(&second),
        "X,22,11,0",
    );
    let mut many = vec![holding("L,B,CA,2025-01-02,1,0"); 258];
    many[256] = wrong();
    list.add("25 in the 257th holding", dated(&many), "X,25,257,0");
    many.swap(256, 257);
    let title = "a 257th holding before 25 in the next record";
    list.add(title, dated(&many), "X,3,0,0");
}
