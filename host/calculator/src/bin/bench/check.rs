//! Calls a second of the exported check and of the calculator's plain check.

use std::hint::black_box;

use margin_calculator::samples::{
    ANY, CORPORATE, DOMESTIC, FOREIGN, GOVERNMENTS, PERIODS, PROVINCES, Random, Shape, best_sheet,
    holdings, split_lines,
};
use margin_calculator::{FIRST_CORPORATION, Row, Sheet, VALUED, client, margin_check, participant};
use margin_host::{Columns, Head, raw};

use crate::SEED;
use crate::timing::{BATCHES, rates};

type Call = fn(u64, u64, &Columns<&[u8]>, &mut [u8], &mut [u8], &mut [u8]) -> u64;

/// Holdings in CAD in the first period alone, where days are counted.
const FIRST_PERIOD: Shape = Shape {
    terms: &[PERIODS[0]],
    ..DOMESTIC
};

/// The lists that a call writes.
#[derive(Clone, PartialEq, Eq)]
struct Lists {
    remainder: Vec<u8>,
    ranking: Vec<u8>,
    answer: [u8; 16],
}

/// Prints a line for each book.
pub fn run() {
    println!(
        "Proposals from seed {SEED:#x}; half long, half short; kinds and issuers mixed, in CAD."
    );
    println!(
        "First period: all in one period, the longs strips. Provinces: bonds and strips of the ten on either side, paired"
    );
    println!(
        "within a province, and strips across. Both paragraphs: half in USD or GBP, each long there with a short. All"
    );
    println!(
        "paragraphs: half of the rest of corporations. Few and many corporations: 4, and a fourth of the holdings, in"
    );
    println!("CAD. Any currency, any issuer: also what no paragraph pairs.");
    println!(
        "A client's: the holdings of any issuer in a client's account; all other accounts are approved participants'."
    );
    println!("Valued on 2025-01-01. Outputs are not cleared before a call.");
    println!("Median of {BATCHES} alternating batches; calls a second, and their ratio.");
    println!();
    println!(
        "{:>8}  {:<17} {:>5}  {:>6}  {:>12}  {:>12}  {:>12}",
        "holdings", "book", "lines", "number", "check", "plain", "check/plain"
    );
    for size in [1, 16, 64, 256] {
        print_line("first period", &sheet_of(&book_of(size, &FIRST_PERIOD)), 0);
        print_line("mixed periods", &sheet_of(&mixed_periods(size)), 0);
        if size > 1 {
            let provinces = in_turn(size, &PROVINCES, &PROVINCES);
            print_line("provinces", &sheet_of(&provinces), 0);
            print_line("both paragraphs", &sheet_of(&both_paragraphs(size)), 0);
            print_line("all paragraphs", &sheet_of(&all_paragraphs(size)), 0);
        }
        if size > 16 {
            print_line("few corporations", &sheet_of(&book_of(size, &CORPORATE)), 0);
            print_line("many corporations", &sheet_of(&many_corporations(size)), 0);
        }
    }
    print_line("any currency", &sheet_of(&book_of(256, &GOVERNMENTS)), 0);
    let any_issuer = book_of(256, &ANY);
    print_line("any issuer", &sheet_of(&any_issuer), 0);
    print_line("a client's", &sheet_under(client(VALUED), &any_issuer), 0);
    print_line("uncovered late", &uncovered_late(), 16);
    print_line("nothing paired", &nothing_paired(), 0);
}

/// Measures a sheet to which both must give this number.
fn print_line(book: &str, sheet: &Sheet, number: u64) {
    let [ours, plain] = measure(sheet, number);
    let (size, lines) = (sheet.side.len(), sheet.long.len());
    let ratio = ours / plain;
    println!(
        "{size:>8}  {book:<17} {lines:>5}  {number:>6}  {ours:>12.0}  {plain:>12.0}  {ratio:>12.2}"
    );
}

/// A best proposal of a participant, its lines split until there are twice as many as holdings.
pub fn sheet_of(book: &[Row]) -> Sheet {
    sheet_under(participant(VALUED), book)
}

/// A best proposal under a head, its lines split until there are twice as many as holdings.
fn sheet_under(head: Head, book: &[Row]) -> Sheet {
    let mut sheet = best_sheet(&Sheet::of_rows(head, book, 0));
    split_lines(&mut sheet, 2 * book.len());
    sheet
}

/// Longs and shorts in CAD in all periods.
pub fn mixed_periods(size: usize) -> Vec<Row> {
    book_of(size, &DOMESTIC)
}

/// In turn a long and a short in CAD, and a long and a short of one government in one foreign currency, of
/// which one is a bond; in all periods.
fn both_paragraphs(size: usize) -> Vec<Row> {
    let mut random = Random::new(SEED);
    let mut book = mixed_periods(size);
    for four in book.as_chunks_mut().0 {
        let [_, _, long, short] = four;
        long.issuer = random.pick(FOREIGN.issuers);
        long.currency = random.pick(FOREIGN.currencies);
        (short.issuer, short.currency) = (long.issuer, long.currency);
        short.maturity = long.maturity;
        short.kind = 0;
        if random.below(2) == 0 {
            std::mem::swap(&mut long.kind, &mut short.kind);
        }
    }
    book
}

/// The same, but of every eight holdings a long and a short in CAD are a bond and a strip of one corporation.
fn all_paragraphs(size: usize) -> Vec<Row> {
    let mut random = Random::new(SEED);
    let mut book = both_paragraphs(size);
    for eight in book.as_chunks_mut::<8>().0 {
        let [long, short, ..] = eight;
        long.issuer = random.pick(CORPORATE.issuers);
        long.rating = random.pick(&[0, 1]);
        (short.issuer, short.rating) = (long.issuer, 0);
        short.maturity = long.maturity;
        short.kind = 0;
    }
    book
}

/// In turn a long strip and a short bond of a corporation in CAD, in all periods: of each corporation two.
fn many_corporations(size: usize) -> Vec<Row> {
    let mut book = book_of(size, &CORPORATE);
    for (number, two) in book.as_chunks_mut().0.iter_mut().enumerate() {
        let [long, short] = two;
        long.issuer = FIRST_CORPORATION + (number % (size / 4)) as u64;
        (short.issuer, short.kind, short.rating) = (long.issuer, 0, 0);
        short.maturity = long.maturity;
    }
    book
}

/// Longs and shorts of a shape in turn. The longs are strips, so that in one period and in CAD each of them
/// may be paired with every short of Canada and every strip of a province.
pub fn book_of(size: usize, shape: &Shape) -> Vec<Row> {
    let strips = Shape {
        kinds: &[1, 2],
        ..*shape
    };
    in_turn(size, &strips, shape)
}

/// Longs of one shape and shorts of another in turn, of large values.
fn in_turn(size: usize, longs: &Shape, shorts: &Shape) -> Vec<Row> {
    let mut random = Random::new(SEED);
    let values = &[(1_000_000, 100_000_000_000)];
    let long = Shape {
        sides: &[0],
        values,
        ..*longs
    };
    let short = Shape {
        sides: &[1],
        values,
        ..*shorts
    };
    let mut book = Vec::with_capacity(size);
    for number in 0..size {
        let shape = if number % 2 == 0 { &long } else { &short };
        book.extend(holdings(&mut random, shape, VALUED, 1));
    }
    book
}

/// A full book whose last long with a price has one unit too little, so that all longs before it are
/// looked at.
fn uncovered_late() -> Sheet {
    let mut sheet = sheet_of(&book_of(256, &FIRST_PERIOD));
    let priced = |holding: &usize| sheet.side[*holding] == 0 && sheet.price[*holding] > 0;
    let last = (0..256).rfind(priced).expect("a long has a price");
    sheet.price[last] -= 1;
    sheet
}

/// A full book of bonds, which pair with no bond.
fn nothing_paired() -> Sheet {
    let mut book = mixed_periods(256);
    for row in &mut book {
        row.kind = 0;
    }
    Sheet::of_rows(participant(VALUED), &book, 0)
}

/// Calls a second of the check and of the plain check.
fn measure(sheet: &Sheet, number: u64) -> [f64; 2] {
    let calls: [Call; 2] = [raw::margin_check, margin_check];
    let columns = sheet.bytes();
    let columns = columns.each_ref().map(Vec::as_slice);
    let (head, bytes) = (sheet.head, columns.side.len());
    let fresh = Lists {
        remainder: vec![1; bytes],
        ranking: vec![1; bytes],
        answer: [1; 16],
    };
    let [mut ours, mut plain] = calls.map(|_| fresh.clone());
    let numbers = [
        call_once(calls[0], head, &columns, &mut ours),
        call_once(calls[1], head, &columns, &mut plain),
    ];
    assert_eq!(numbers, [number; 2], "both give the number");
    assert!(ours == plain, "both leave the same bytes");
    let rates = rates([
        &mut || {
            black_box(call_once(
                calls[0],
                black_box(head),
                black_box(&columns),
                black_box(&mut ours),
            ));
        },
        &mut || {
            black_box(call_once(
                calls[1],
                black_box(head),
                black_box(&columns),
                black_box(&mut plain),
            ));
        },
    ]);
    assert!(ours == plain, "both still leave the same bytes");
    rates
}

fn call_once(call: Call, head: Head, columns: &Columns<&[u8]>, lists: &mut Lists) -> u64 {
    call(
        head.date,
        head.letter,
        columns,
        &mut lists.remainder,
        &mut lists.ranking,
        &mut lists.answer,
    )
}
