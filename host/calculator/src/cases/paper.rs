//! Document 01's worked file, edges and shortcuts, valued on 2025-01-01, and cases next to them.

use super::{Fields, Files, List};
use crate::texts::{PRINTED, dated, file, holding, joined, line};

/// One holding of one cent, and its rate.
const RATES: [(&str, u64); 11] = [
    ("B,CA,2025-01-02", 4),
    ("B,CA,2026-01-01", 1_460),
    ("B,CA,2026-01-02", 1_460),
    ("B,CA,2028-01-01", 1_460),
    ("B,CA,2028-01-02", 2_920),
    ("B,ON,2026-01-01", 2_920),
    ("B,ON,2026-01-02", 4_380),
    ("C,CA,2025-01-02", 6),
    ("C,CA,2044-12-31", 8_760),
    ("C,CA,2045-01-01", 17_520),
    ("R,AB,2125-01-01", 21_900),
];

/// Files of one holding, by its fields.
#[rustfmt::skip]
const SINGLE: [(&str, &str, &str); 7] = [
    ("matured on the valuation date", "L,C,CA,2025-01-01,1,0", "X,7,0,0"),
    ("the day after the 100th anniversary", "L,C,CA,2125-01-02,1,0", "X,7,0,0"),
    ("0 cents", "L,C,CA,2025-01-02,0,0", "X,8,0,0"),
    ("100000000001 cents", "L,C,CA,2025-01-02,100000000001,0", "X,8,0,0"),
    ("the largest margin", "S,R,PE,2125-01-01,100000000000,0", "M,2190000000000000,15000000000"),
    ("146000 units", "L,B,CA,2025-01-02,36500,0", "M,146000,1"),
    ("146004 units", "L,B,CA,2025-01-02,36501,0", "M,146004,2"),
];

/// A long and a short of one cent with a line, the price of the long, and what is printed.
#[rustfmt::skip]
const PAIRS: [(&str, &str, u64, &str); 10] = [
    ("C,CA,2036-01-01", "C,CA,2036-01-02", 17_520, "X,13,0,0"),
    ("C,CA,2038-09-10", "C,CA,2046-11-27", 17_520, "M,8760,1"),
    ("B,CA,2030-06-24", "B,CA,2030-06-24", 0, "X,13,0,0"),
    ("B,CA,2030-06-24", "B,ON,2030-06-24", 0, "X,13,0,0"),
    ("C,ON,2030-06-24", "R,QC,2030-06-24", 17_520, "M,0,0"),
    ("C,CA,2030-06-24", "R,ON,2030-06-24", 6_570, "M,6570,1"),
    ("R,ON,2030-06-24", "C,CA,2030-06-24", 6_570, "M,6570,1"),
    ("B,ON,2030-06-24", "C,ON,2030-06-24", 11_680, "M,2920,1"),
    ("C,CA,2026-01-01", "R,CA,2026-01-02", 0, "X,13,0,0"),
    ("R,NB,2125-01-01", "C,NL,2045-01-01", 43_800, "M,0,0"),
];

/// ON, 2030-06-24, 1,000 cents each: prices of long coupon and bond, short coupon and bond; and lines.
const FORTY_OR_EIGHTY: [(&str, [u64; 4], Fields, &str); 4] = [
    (
        "40 cents: each coupon with the other side's bond",
        [8_760, 2_920, 8_760, 2_920],
        &["0,3,1000", "1,2,1000"],
        "M,5840000,40",
    ),
    (
        "80 cents: coupon with coupon, prices cover",
        [8_760, 2_920, 8_760, 2_920],
        &["0,2,1000"],
        "X,17,0,0",
    ),
    (
        "80 cents: coupon with coupon, long bond uncovered",
        [17_520, 0, 0, 0],
        &["0,2,1000"],
        "X,16,1,2",
    ),
    (
        "80 cents: coupon with coupon, short bond uncovered",
        [8_760, 0, 8_760, 0],
        &["0,2,1000"],
        "X,16,0,3",
    ),
];

/// The other shortcuts, and what must come out instead.
const SHORTCUTS: Files<6> = [
    (
        "equal rates on both sides of 11 years, no line",
        &["L,C,CA,2036-01-01,1000,0", "S,C,CA,2036-01-02,1000,0"],
        &[],
        "M,17520000,120",
    ),
    (
        "the line covers, a pair in no line does not",
        &[
            "L,C,CA,2025-04-11,1000,0",
            "L,C,CA,2025-07-20,1000,0",
            "S,C,CA,2025-07-20,1000,1200",
        ],
        &["0,2,1000"],
        "X,16,1,2",
    ),
    (
        "the better long in the line",
        &[
            "L,C,CA,2025-04-11,1000,0",
            "L,C,CA,2025-07-20,1000,0",
            "S,C,CA,2025-07-20,1000,2400",
        ],
        &["1,2,1000"],
        "M,600000,5",
    ),
    (
        "two lines of six units are one cent",
        &[
            "L,C,CA,2025-01-03,1,12",
            "L,C,CA,2025-01-03,1,12",
            "S,C,CA,2025-01-02,1,0",
            "S,C,CA,2025-01-02,1,0",
        ],
        &["0,2,1", "1,3,1"],
        "M,12,1",
    ),
    (
        "two holdings of four units are one cent",
        &["L,B,CA,2025-01-02,1,0", "L,B,CA,2025-01-02,1,0"],
        &[],
        "M,8,1",
    ),
    (
        "two lines on the same two holdings add up",
        &["L,C,ON,2035-01-01,700,21900", "S,C,ON,2035-01-01,700,0"],
        &["0,1,300", "0,1,400"],
        "M,0,0",
    ),
];

pub(super) fn add(list: &mut List) {
    the_file(list);
    for (at, (holding, rate)) in RATES.into_iter().enumerate() {
        let side = ["L", "S"][at % 2];
        let text = file(&[&format!("{side},{holding},1,0")], &[]);
        let title = format!("the rate of {side},{holding}");
        list.add(title, text, format!("M,{rate},1"));
    }
    for (title, fields, first) in SINGLE {
        list.add(title, file(&[fields], &[]), first);
    }
    for (long, short, price, first) in PAIRS {
        let legs = [format!("L,{long},1,{price}"), format!("S,{short},1,0")];
        let text = file(&[&legs[0], &legs[1]], &["0,1,1"]);
        list.add(format!("{long} with {short}"), text, first);
    }
    for (title, prices, lines, first) in FORTY_OR_EIGHTY {
        let mut records = Vec::new();
        for (leg, price) in ["L,C", "L,B", "S,C", "S,B"].iter().zip(prices) {
            records.push(holding(&format!("{leg},ON,2030-06-24,1000,{price}")));
        }
        records.extend(lines.iter().map(|fields| line(fields)));
        list.add(title, dated(&records), first);
    }
    for (title, holdings, lines, first) in SHORTCUTS {
        list.add(title, file(holdings, lines), first);
    }
}

fn the_file(list: &mut List) {
    let text = joined(&PRINTED);
    let length = text.len();
    list.add("the empty book", file(&[], &[]), "M,0,0");
    list.add(
        "the printed file, no last CRLF",
        &text[..length - 2],
        "M,3285000000,22500",
    );
    list.add("the printed file", text, "M,3285000000,22500");
    for (what, at, record, first) in [
        (
            "third price 6569",
            3,
            holding("S,R,ON,2030-06-24,300000,6569"),
            "X,16,0,2",
        ),
        (
            "first price 1",
            1,
            holding("L,C,CA,2030-06-24,1000000,1"),
            "X,17,0,0",
        ),
        ("first amount 600001", 4, line("0,1,600001"), "X,15,0,0"),
    ] {
        let mut records = PRINTED.map(str::to_string);
        records[at] = record;
        list.add(format!("the printed file, {what}"), joined(&records), first);
    }
}
