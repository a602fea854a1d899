//! Document 02 g): a provincial bond pairs with a provincial strip of the same province alone, and strips pair across
//! provinces. Each book is judged alike in either account.

use super::{Fields, List};
use crate::texts::{dated, dated_for, holding, line, quoted_at};
use crate::{ACCOUNTS, ISSUERS};

/// A long and a short of one cent that may be paired, the price of the long that just covers them, and what is
/// printed.
#[rustfmt::skip]
const ALLOWED: [(&str, &str, u64, &str); 12] = [
    // A bond and a strip of one province.
    ("B,ON,2030-06-24", "C,ON,2030-06-24", 11_680, "M,2920,1"),
    ("R,QC,2030-06-24", "B,QC,2030-06-24", 11_680, "M,2920,1"),
    ("B,AB,2026-01-01", "C,AB,2025-01-02", 24, "M,2908,1"),
    ("B,PE,2033-03-20", "R,PE,2033-03-20", 14_600, "M,3650,1"),
    ("R,SK,2045-01-01", "B,SK,2125-01-01", 14_600, "M,14600,1"),
    // Strips of two provinces.
    ("C,QC,2030-06-24", "C,ON,2030-06-24", 17_520, "M,0,0"),
    ("R,AB,2030-06-24", "C,SK,2030-06-24", 17_520, "M,0,0"),
    ("C,BC,2038-09-10", "R,NS,2046-11-27", 21_900, "M,10950,1"),
    // Canada and a province.
    ("B,ON,2030-06-24", "C,CA,2030-06-24", 5_110, "M,5110,1"),
    ("R,CA,2030-06-24", "B,QC,2030-06-24", 5_110, "M,5110,1"),
    ("B,CA,2030-06-24", "C,ON,2030-06-24", 5_840, "M,5840,1"),
    ("R,AB,2030-06-24", "B,CA,2030-06-24", 5_840, "M,5840,1"),
];

/// A long and a short of one cent that may not be paired, and what is printed of the two alone.
#[rustfmt::skip]
const NOT_ALLOWED: [(&str, &str, &str); 12] = [
    // A bond and a strip of two provinces.
    ("B,ON,2030-06-24", "C,QC,2030-06-24", "M,14600,1"),
    ("R,ON,2030-06-24", "B,QC,2030-06-24", "M,14600,1"),
    ("B,QC,2030-06-24", "R,ON,2030-06-24", "M,14600,1"),
    ("C,AB,2030-06-24", "B,BC,2030-06-24", "M,14600,1"),
    ("B,AB,2030-06-24", "C,SK,2030-06-24", "M,14600,1"),
    ("R,AB,2030-06-24", "B,SK,2030-06-24", "M,14600,1"),
    ("B,NB,2026-01-01", "C,MB,2026-01-01", "M,7300,1"),
    ("R,NL,2046-11-27", "B,NS,2046-11-27", "M,29200,1"),
    // Bonds, of one province and of two.
    ("B,ON,2030-06-24", "B,ON,2030-06-24", "M,11680,1"),
    ("B,ON,2030-06-24", "B,QC,2030-06-24", "M,11680,1"),
    // One province in two periods.
    ("B,ON,2032-01-01", "C,ON,2032-01-02", "M,16790,1"),
    ("C,QC,2026-01-01", "B,QC,2026-01-02", "M,8760,1"),
];

/// An ON bond that may be paired with Canada's strip and not with that of QC.
const ONE_BOND: Fields = &["L,B,ON", "S,C,QC", "S,C,CA"];
/// Document 01's coupon and bond on either side: each side of a province of its own, three of one province, and each
/// coupon with the bond of its province on the other side.
const APART: Fields = &["L,C,ON", "L,B,ON", "S,C,QC", "S,B,QC"];
const THREE_OF_ONE: Fields = &["L,C,ON", "L,B,ON", "S,C,ON", "S,B,QC"];
const CROSSED: Fields = &["L,C,ON", "L,B,QC", "S,C,QC", "S,B,ON"];

/// A title, holdings of 1,000 cents that mature on 2030-06-24 and their prices, lines, and what is printed.
type Book = (&'static str, Fields, &'static [u64], Fields, &'static str);

#[rustfmt::skip]
const BOOKS: [Book; 22] = [
    ("an ON bond with a QC strip", &["L,B,ON", "S,C,QC"], &[0, 11_680], &["0,1,1000"], "X,13,0,0"),
    ("an ON bond without a QC strip, its price kept", &["L,B,ON", "S,C,QC"], &[0, 11_680], &[], "X,17,0,0"),
    ("an ON bond without a QC strip", &["L,B,ON", "S,C,QC"], &[0, 0], &[], "M,14600000,100"),
    // 1,000 at 5,110 for the pair and at 8,760 for the strip of QC.
    ("one bond, QC's strip in a line", ONE_BOND, &[11_680, 0, 0], &["0,1,1000"], "X,13,0,0"),
    ("one bond, Canada's strip in a line", ONE_BOND, &[5_110, 0, 0], &["0,2,1000"], "M,13870000,95"),
    ("one bond, priced for QC's strip", ONE_BOND, &[11_680, 0, 0], &["0,2,1000"], "X,17,0,0"),
    ("one bond, one unit too little", ONE_BOND, &[5_109, 0, 0], &["0,2,1000"], "X,16,0,2"),
    ("one bond, no line", ONE_BOND, &[0, 0, 0], &[], "X,16,0,2"),
    ("12 before 13 of a line", ONE_BOND, &[5_110, 0, 0], &["1,0,1"], "X,12,0,0"),
    ("13 before 14 of a line", ONE_BOND, &[5_110, 0, 0], &["0,1,0"], "X,13,0,0"),
    ("13 before 15 of a line", ONE_BOND, &[5_110, 0, 0], &["0,1,1001"], "X,13,0,0"),
    ("13 before 16", ONE_BOND, &[0, 0, 0], &["0,1,1"], "X,13,0,0"),
    ("13 of the second line", ONE_BOND, &[5_110, 0, 0], &["0,2,500", "0,1,500"], "X,13,1,0"),
    ("14 of a line before 13 of the next", ONE_BOND, &[5_110, 0, 0], &["0,2,0", "0,1,500"], "X,14,0,0"),
    // Coupon with coupon is now the least, 80 cents, where no coupon may be paired with the other side's bond.
    ("apart, 40 cents", APART, &[8_760, 2_920, 8_760, 2_920], &["0,3,1000", "1,2,1000"], "X,13,0,0"),
    ("apart, 80 cents, prices of 40", APART, &[8_760, 2_920, 8_760, 2_920], &["0,2,1000"], "X,17,0,0"),
    ("apart, 80 cents", APART, &[17_520, 0, 0, 0], &["0,2,1000"], "M,11680000,80"),
    ("three of one, long bond uncovered", THREE_OF_ONE, &[17_520, 0, 0, 0], &["0,2,1000"], "X,16,1,2"),
    ("three of one, 80 cents", THREE_OF_ONE, &[5_840, 0, 11_680, 0], &["0,2,1000"], "M,11680000,80"),
    ("three of one, long bond in a line", THREE_OF_ONE, &[0, 0, 11_680, 0], &["1,2,1000"], "X,16,0,2"),
    ("crossed, 40 cents", CROSSED, &[8_760, 2_920, 8_760, 2_920], &["0,3,1000", "1,2,1000"], "M,5840000,40"),
    ("crossed, long bond uncovered", CROSSED, &[17_520, 0, 0, 0], &["0,2,1000"], "X,16,1,2"),
];

pub(super) fn add(list: &mut List) {
    for account in ACCOUNTS {
        for (long, short, price, first) in ALLOWED {
            let title = format!("{account}: {long} with {short}");
            list.add(title, pair(account, long, price, short, &["0,1,1"]), first);
            let title = format!("{account}: {long} with {short}, one unit too little");
            let text = pair(account, long, price - 1, short, &["0,1,1"]);
            list.add(title, text, "X,16,0,1");
        }
        for (long, short, first) in NOT_ALLOWED {
            let title = format!("{account}: {long} with {short}");
            let text = pair(account, long, 43_800, short, &["0,1,1"]);
            list.add(title, text, "X,13,0,0");
            let title = format!("{account}: {long} without {short}");
            list.add(title, pair(account, long, 0, short, &[]), first);
        }
        for (title, legs, prices, lines, first) in BOOKS {
            let priced = legs.iter().zip(prices);
            let holdings: Vec<String> = priced
                .map(|(leg, price)| format!("{leg},2030-06-24,1000,{price}"))
                .collect();
            let title = format!("{account}: provinces, {title}");
            list.add(title, file_for(account, &holdings, lines), first);
        }
    }
    let bond = quoted_at(&holding("L,B,ON,2030-06-24,1,0"), &[3]);
    let strip = holding("S,C,ON,2030-06-24,1,0");
    list.add("one province, in quotes", dated(&[bond, strip]), "X,16,0,1");
    of_the_ten(list);
}

/// A long with its price and a short at price 0, of one cent each.
fn pair(account: &str, long: &str, price: u64, short: &str, lines: Fields) -> Vec<u8> {
    let legs = [format!("L,{long},1,{price}"), format!("S,{short},1,0")];
    file_for(account, &legs, lines)
}

fn file_for(account: &str, holdings: &[String], lines: Fields) -> Vec<u8> {
    let mut records: Vec<String> = holdings.iter().map(|fields| holding(fields)).collect();
    records.extend(lines.iter().map(|fields| line(fields)));
    dated_for(account, &records)
}

/// A bond of each province against a strip of every province, and against those of the nine others, at prices of 0.
fn of_the_ten(list: &mut List) {
    let provinces = &ISSUERS[1..=10];
    for (number, province) in provinces.iter().enumerate() {
        for (bond, strip, first) in [
            ("L,B", "S,C", format!("X,16,0,{}", 1 + number)),
            ("S,B", "L,R", format!("X,16,{},0", 1 + number)),
        ] {
            let of = |leg: &str, issuer: &str| holding(&format!("{leg},{issuer},2030-06-24,1,0"));
            let mut records = vec![of(bond, province)];
            records.extend(provinces.iter().map(|other| of(strip, other)));
            let title = format!("{bond} of {province} and strips of the ten");
            list.add(title, dated(&records), first);
            records.remove(1 + number);
            // A bond at 5,840 and nine strips at 8,760.
            let title = format!("{bond} of {province} and strips of the nine others");
            list.add(title, dated(&records), "M,84680,1");
        }
    }
}
