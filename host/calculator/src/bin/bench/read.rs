//! Calls and megabytes a second of the exported reader and of the calculator's.

use std::hint::black_box;

use margin_calculator::samples::CORPORATE;
use margin_calculator::texts::{
    dated, equal_lines, issuer_text, joined, last_lines, quoted, rated, records,
};
use margin_calculator::{MOST_BYTES, margin_leis, margin_read};
use margin_host::{Columns, raw};

use crate::check::{book_of, mixed_periods, sheet_of};
use crate::timing::{BATCHES, rates};

type Call = fn(&[u8], &mut [u8], &mut Columns<&mut [u8]>, &mut [u8]) -> u64;

type LeisCall = fn(&[u8], &mut [u8], &mut [u8]) -> u64;

/// Bytes for the LEIs of every file.
const ROOM_OF_LEIS: usize = 20 * 256;

/// What a call writes: the head, the columns and the answer.
type Written = ([u8; 16], Columns<Vec<u8>>, [u8; 16]);

/// The exported reader and the calculator's.
const CALLS: [Call; 2] = [raw::margin_read, margin_read];

/// A head, 256 holdings and 512 lines that the check accepts.
pub fn full_file() -> Vec<String> {
    records(&sheet_of(&mixed_periods(256)))
}

/// A head, 256 holdings of four corporations and 512 lines that the check accepts.
fn few_corporations() -> Vec<u8> {
    joined(&records(&sheet_of(&book_of(256, &CORPORATE))))
}

/// A head and 256 holdings, each of another corporation.
fn many_corporations() -> Vec<u8> {
    let record = |number| {
        rated(
            "Y",
            &format!("L,B,{},2030-06-24,1000,0", issuer_text(number)),
        )
    };
    dated(&(100..356).map(record).collect::<Vec<String>>())
}

/// The texts that are read, with their names.
fn texts() -> [(&'static str, Vec<u8>); 9] {
    let full = full_file();
    let in_quotes: Vec<String> = full.iter().map(|record| quoted(record)).collect();
    let mut field = vec![b'x'; MOST_BYTES];
    (field[0], field[MOST_BYTES - 1]) = (b'"', b'"');
    [
        ("full file", joined(&full)),
        ("full file in quotes", joined(&in_quotes)),
        ("four corporations", few_corporations()),
        ("256 corporations", many_corporations()),
        ("commas", vec![b','; MOST_BYTES]),
        ("one field in quotes", field),
        ("one holding", joined(&full[..2])),
        ("no holding", joined(&full[..1])),
        ("empty file", Vec::new()),
    ]
}

/// Prints a line for each text, and one for each end of a long file.
pub fn run() {
    run_beside_plain();
    println!();
    run_leis();
    println!();
    run_by_length();
}

fn run_beside_plain() {
    println!(
        "Files of 256 holdings and 512 lines, texts of the greatest length, which are refused, and small files."
    );
    println!("The longest file that can be read at all has 48,424 bytes.");
    println!(
        "Median of {BATCHES} alternating batches; calls and megabytes (MB) a second, and their ratio."
    );
    println!();
    println!(
        "{:<20} {:>6}  {:>6}  {:>11}  {:>11}  {:>9}  {:>9}  {:>10}",
        "text", "bytes", "number", "read", "plain", "read MB", "plain MB", "read/plain"
    );
    for (name, text) in texts() {
        let (number, [ours, plain]) = measure(&text);
        let bytes = text.len();
        let [our_rate, plain_rate] = [ours, plain].map(|rate| rate * bytes as f64 / 1e6);
        let ratio = ours / plain;
        println!(
            "{name:<20} {bytes:>6}  {number:>6}  {ours:>11.0}  {plain:>11.0}  {our_rate:>9.1}  \
             {plain_rate:>9.1}  {ratio:>10.2}"
        );
    }
}

/// Calls a second for the LEIs of a file.
fn run_leis() {
    println!("The LEIs of the corporations of a file.");
    println!("Median of {BATCHES} alternating batches; calls a second, and their ratio.");
    println!();
    println!(
        "{:<20} {:>6}  {:>6}  {:>11}  {:>11}  {:>10}",
        "text", "bytes", "LEIs", "leis", "plain", "leis/plain"
    );
    for (name, text) in [
        ("full file", joined(&full_file())),
        ("four corporations", few_corporations()),
        ("256 corporations", many_corporations()),
    ] {
        let (count, [ours, plain]) = measure_leis(&text);
        let (bytes, ratio) = (text.len(), ours / plain);
        println!("{name:<20} {bytes:>6}  {count:>6}  {ours:>11.0}  {plain:>11.0}  {ratio:>10.2}");
    }
}

/// How many LEIs a file has that is read, and calls a second of each.
fn measure_leis(text: &[u8]) -> (u64, [f64; 2]) {
    let calls: [LeisCall; 2] = [raw::margin_leis, margin_leis];
    let [mut ours, mut plain] = calls.map(|_| (vec![1; ROOM_OF_LEIS], [1; 16]));
    let read = |call: LeisCall, lists: &mut (Vec<u8>, [u8; 16])| {
        let (leis, answer) = black_box(lists);
        assert_eq!(call(black_box(text), leis, answer), 0, "the file is read");
    };
    let rates = rates([&mut || read(calls[0], &mut ours), &mut || {
        read(calls[1], &mut plain)
    }]);
    assert!(ours == plain, "both leave the same bytes");
    (u64::from_le_bytes(ours.1.as_chunks().0[0]), rates)
}

fn run_by_length() {
    println!("Files of D and 50 or 500 equal lines, without a fault and with one in the last.");
    println!(
        "Median of {BATCHES} alternating batches; calls a second, and how many times as long the longer file takes:"
    );
    println!("the exported reader may take 20 times.");
    println!();
    println!(
        "{:<20} {:>6}  {:>9}  {:>9}  {:>10}  {:>9}  {:>9}  {:>11}",
        "last line",
        "number",
        "read 50",
        "read 500",
        "read times",
        "plain 50",
        "plain 500",
        "plain times"
    );
    for (name, last, number) in last_lines() {
        print!("{name:<20} {number:>6}");
        let texts = [50, 500].map(|count| equal_lines(count, &last));
        for ([short, long], width) in measure_lengths(&texts, number).into_iter().zip([10, 11]) {
            let times = short / long;
            print!("  {short:>9.0}  {long:>9.0}  {times:>width$.2}");
        }
        println!();
    }
}

/// The number that both return, and calls a second of each.
fn measure(text: &[u8]) -> (u64, [f64; 2]) {
    let [mut ours, mut plain] = CALLS.map(|_| room());
    let number = call_once(CALLS[0], text, &mut ours);
    assert_eq!(
        number,
        call_once(CALLS[1], text, &mut plain),
        "the same number"
    );
    assert!(ours == plain, "both leave the same bytes");
    let rates = rates([
        &mut || {
            black_box(call_once(CALLS[0], black_box(text), black_box(&mut ours)));
        },
        &mut || {
            black_box(call_once(CALLS[1], black_box(text), black_box(&mut plain)));
        },
    ]);
    assert!(ours == plain, "both still leave the same bytes");
    (number, rates)
}

/// Calls a second of each reader on each of two texts, for which this number must be returned.
fn measure_lengths(texts: &[Vec<u8>; 2], number: u64) -> [[f64; 2]; 2] {
    let read = |call, text: &[u8], written: &mut Written| {
        let given = call_once(call, black_box(text), black_box(written));
        assert_eq!(given, number, "the number of the last line");
    };
    let ([ours, plain], [short, long]) = (CALLS, texts);
    let mut written = [(); 4].map(|()| room());
    let [a, b, c, d] = written.each_mut();
    let [ours_short, ours_long, plain_short, plain_long] = rates([
        &mut || read(ours, short, a),
        &mut || read(ours, long, b),
        &mut || read(plain, short, c),
        &mut || read(plain, long, d),
    ]);
    [[ours_short, ours_long], [plain_short, plain_long]]
}

/// Lists with room for every file.
fn room() -> Written {
    (
        [1; 16],
        Columns::by_group(vec![1; 8 * 256], vec![1; 8 * 512]),
        [1; 16],
    )
}

fn call_once(call: Call, text: &[u8], (head, columns, answer): &mut Written) -> u64 {
    let mut lists = columns.each_mut().map(Vec::as_mut_slice);
    call(text, head, &mut lists, answer)
}
