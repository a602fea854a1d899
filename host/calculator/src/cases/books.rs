//! Books of many shapes and sizes with best proposals, proposals next to them, and ties in the ranking.

use super::{Files, List};
use crate::samples::{
    ANY, CLIENTS, CORPORATE, CORPORATIONS, DOMESTIC, GOVERNMENTS, PROVINCES, Random, SHAPES, Shape,
    best_sheet, book, split_lines,
};
use crate::texts::{dated, file, holding, joined, quoted, records, text_of};
use crate::{ACCOUNTS, Sheet};

const SEED: u64 = 0x0C01;

const MANY_CORPORATIONS: Shape = Shape {
    issuers: &CORPORATIONS,
    ..CORPORATE
};

const TIES: Files<3> = [
    (
        "ties: four holdings alike",
        &["L,C,ON,2030-06-24,1000,0"; 4],
        &[],
        "M,35040000,240",
    ),
    // 1 x 8,760 and 2 x 4,380 units.
    (
        "ties: equal units of different holdings",
        &[
            "L,C,ON,2030-06-24,1,0",
            "L,C,CA,2030-06-24,2,0",
            "L,C,ON,2030-06-24,1,0",
            "L,B,CA,2025-01-02,1,0",
        ],
        &[],
        "M,26284,1",
    ),
    (
        "ranking: nothing left of two holdings",
        &[
            "L,B,CA,2026-02-05,1,0",
            "L,C,SK,2025-02-20,9,1200",
            "S,R,SK,2025-02-20,9,0",
            "L,B,CA,2026-02-05,2,0",
        ],
        &["1,2,9"],
        "M,4380,1",
    ),
];

pub(super) fn add(list: &mut List) {
    let mut random = Random::new(SEED);
    for shape in &SHAPES {
        let sheet = best_sheet(&book(&mut random, shape, 20));
        list.add(
            format!("best proposal: {}", shape.name),
            text_of(&sheet),
            "",
        );
    }
    for size in [1, 2, 3, 8, 34, 89, 255, 256] {
        let sheet = best_sheet(&book(&mut random, &DOMESTIC, size));
        list.add(
            format!("best proposal of {size} holdings"),
            text_of(&sheet),
            "",
        );
    }
    for (what, shape) in [
        ("in any currency", GOVERNMENTS),
        ("of any issuer and currency", ANY),
        ("of many corporations", MANY_CORPORATIONS),
        ("of a client", CLIENTS),
        ("of provinces", PROVINCES),
    ] {
        let sheet = best_sheet(&book(&mut random, &shape, 256));
        let title = format!("best proposal of 256 holdings {what}");
        list.add(title, text_of(&sheet), "");
    }
    both_accounts(list, &mut random);
    as_one_province(list, &mut random);
    full(list, &mut random);
    next_to_best(list, &mut random);
    ties(list);
}

/// The same holdings in a participant's account and in a client's.
fn both_accounts(list: &mut List, random: &mut Random) {
    for shape in [ANY, GOVERNMENTS, CORPORATE, DOMESTIC, PROVINCES] {
        let mut sheet = book(random, &shape, 30);
        for (letter, account) in (0..).zip(ACCOUNTS) {
            sheet.head.letter = letter;
            let title = format!("best proposal for {account}: {}", shape.name);
            list.add(title, text_of(&best_sheet(&sheet)), "");
        }
    }
}

/// What would be best if all holdings were of one province: where it has a bond with another province's strip, that
/// line is refused.
fn as_one_province(list: &mut List, random: &mut Random) {
    for size in [4, 9, 20, 65] {
        let mut sheet = book(random, &PROVINCES, size);
        let issuers = sheet.issuer.clone();
        sheet.issuer.fill(issuers[0]);
        let mut best = best_sheet(&sheet);
        best.issuer = issuers;
        let title = format!("best if all {size} were of one province");
        list.add(title, text_of(&best), "");
    }
}

/// As many holdings and lines as there may be, every field in quotes.
fn full(list: &mut List, random: &mut Random) {
    let mut sheet = best_sheet(&book(random, &DOMESTIC, 256));
    split_lines(&mut sheet, 512);
    let all: Vec<String> = records(&sheet)
        .iter()
        .map(|record| quoted(record))
        .collect();
    list.add("256 holdings and 512 lines in quotes", joined(&all), "");
}

/// Best proposals with one number changed a little.
fn next_to_best(list: &mut List, random: &mut Random) {
    for shape in SHAPES.iter().step_by(2) {
        let mut sheet = best_sheet(&book(random, shape, 12));
        let what = change(random, &mut sheet);
        list.add(
            format!("next to best, {}: {what}", shape.name),
            text_of(&sheet),
            "",
        );
    }
}

fn change(random: &mut Random, sheet: &mut Sheet) -> &'static str {
    let (names, first) = if sheet.long.is_empty() || random.below(2) == 0 {
        (&["maturity", "value", "price"][..], 3)
    } else {
        (&["long", "short", "amount"][..], 8)
    };
    let at = random.place(names.len());
    let column = sheet
        .each_mut()
        .into_array()
        .into_iter()
        .nth(first + at)
        .expect("there are eleven");
    let entry = random.place(column.len());
    column[entry] = match random.below(3) {
        0 => column[entry] + 1,
        1 => column[entry].saturating_sub(1),
        _ => random.pick(column),
    };
    names[at]
}

fn ties(list: &mut List) {
    for (title, holdings, lines, first) in TIES {
        list.add(title, file(holdings, lines), first);
    }
    let rising: Vec<String> = (1..=9)
        .map(|value| holding(&format!("S,B,MB,2027-06-20,{value},0")))
        .collect();
    let title = "ranking: the largest last in the file";
    list.add(title, dated(&rising), "M,197100,2");
}
