//! Lengths in bytes: the head and the lists that the reader fills, and its answer slice.

mod support;

use margin_calculator::samples::{ANY, best_sheet, book};
use margin_calculator::texts::{PRINTED, dated, dated_for, holding, joined, line, rated, text_of};
use margin_calculator::{Row, Sheet, VALUED, participant};
use margin_host::Line;
use support::file::{File, Files, HEAD_LENGTH, LISTS};
use support::lent::NAMES;
use support::sheets::HEADS;

/// A head, three holdings and two lines.
fn exact() -> File {
    File::exact(&joined(&PRINTED), 3, 2)
}

#[test]
fn one_list_of_every_length() {
    let mut files = Files::fixed("one list of every length");
    for (at, name) in NAMES.iter().enumerate() {
        let needed = exact().lists[at];
        for length in 0..=needed + 33 {
            let mut file = exact();
            file.lists[at] = length;
            let what = format_args!("{name} of {length} bytes");
            if length < needed {
                files.refused(&file, (2, 0), what);
            } else {
                assert_eq!(files.compare(&file, what).number, 0, "{what}");
            }
        }
    }
}

#[test]
fn heads_of_every_length() {
    // The head is asked for its two entries after all records, whatever else is short.
    let mut files = Files::fixed("heads of every length");
    let (late, empty) = ([PRINTED[0]; 2], PRINTED[..1].to_vec());
    let [of_participant, of_client] = HEADS;
    for length in 0..=33 {
        let what = format_args!("head of {length} bytes");
        for (text, holdings, lines, wanted) in [
            (joined(&PRINTED), 3, 2, Ok(of_participant)),
            (dated_for("C", &PRINTED[1..]), 3, 2, Ok(of_client)),
            (joined(&empty), 0, 0, Ok(of_participant)),
            (joined(&late), 0, 0, Err((22, 1))),
            (Vec::new(), 0, 0, Err((22, 0))),
            (joined(&PRINTED[1..]), 3, 2, Err((22, 0))),
        ] {
            let mut file = File::exact(&text, holdings, lines);
            file.head = length;
            let head = match wanted {
                Ok(head) => head,
                Err(refusal) => {
                    files.refused(&file, refusal, what);
                    continue;
                }
            };
            if length < HEAD_LENGTH {
                files.refused(&file, (2, 0), what);
                file.lists = [0; LISTS];
                file.answer = 7;
                files.refused(&file, (2, 0), what);
            } else {
                let read = files.compare(&file, what);
                assert_eq!((read.number, read.sheet().head), (0, head), "{what}");
            }
        }
    }
}

#[test]
fn two_lists_of_other_lengths() {
    // Each list is asked for what it must hold, not for the length of the others.
    let mut files = Files::fixed("two lists of other lengths");
    for (one, name) in NAMES.iter().enumerate() {
        for (other, second) in NAMES.iter().enumerate() {
            for (more, less) in [(8, 0), (5, 0), (0, 1), (8, 8), (13, 3)] {
                let mut file = exact();
                file.lists[one] += more;
                file.lists[other] -= less;
                let short = file.lists[other] < exact().lists[other];
                let what = format_args!("{name} {more} longer, {second} {less} shorter");
                let read = files.compare(&file, what);
                assert_eq!(read.number, if short { 2 } else { 0 }, "{what}");
            }
        }
    }
}

#[test]
fn answers_of_every_length() {
    let mut files = Files::fixed("answers of every length");
    let one = &holding("L,C,CA,2025-01-02,1,0");
    let unknown = &holding("L,C,YT,2025-01-02,1,0");
    let missing = &rated("", "L,C,5493001KJTIIGC8Y1R12,2025-01-02,1,0");
    let texts: [(Vec<u8>, (u64, u64)); 11] = [
        (joined(&PRINTED), (0, 3)),
        (joined(&PRINTED[..1]), (0, 0)),
        (dated(&[PRINTED[1]; 257]), (3, 0)),
        (dated(&[PRINTED[4]; 513]), (9, 0)),
        (vec![b','; 65_537], (18, 0)),
        (b"\r\n".to_vec(), (20, 0)),
        (Vec::new(), (22, 0)),
        (dated(&[one, "\t"]), (19, 2)),
        (dated(&[one, unknown]), (21, 2)),
        (dated(&[one, missing]), (25, 2)),
        (dated(&[&line("0,1,1"), one]), (22, 2)),
    ];
    for length in 0..=24 {
        for (text, (number, place)) in &texts {
            let (number, place) = (*number, *place);
            let mut file = File::of(text);
            file.answer = length;
            let what = format_args!("{number}, answer of {length} bytes");
            if number > 0 {
                files.refused(&file, (number, place), what);
            } else if length < 16 {
                files.refused(&file, (2, 0), what);
            } else {
                let read = files.compare(&file, what);
                assert_eq!(read.number, 0, "{what}");
                assert_eq!(read.figures().map(|both| both.0), Some(place), "{what}");
            }
        }
    }
}

#[test]
fn lists_of_the_empty_book() {
    let mut files = Files::fixed("lists of the empty book");
    for length in 0..=24 {
        let mut file = exact();
        file.text = joined(&PRINTED[..1]);
        file.lists = [length; LISTS];
        let what = format_args!("lists of {length} bytes");
        files.accepted(&file, &Sheet::empty(participant(VALUED)), what);
    }
}

#[test]
fn lists_of_holdings_alone_and_lines_alone() {
    let mut files = Files::fixed("holdings alone and lines alone");
    let holdings = ["L,C,CA,2025-01-02,1,0", "S,C,CA,2025-01-02,1,0"].map(holding);
    let holdings = File::exact(&dated(&holdings), 2, 0);
    let lines = File::exact(&dated(&["0,1,1"; 3].map(line)), 0, 3);
    for file in [holdings, lines] {
        assert_eq!(files.compare(&file, format_args!("exact")).number, 0);
        for (at, name) in NAMES.iter().enumerate() {
            let mut other = file.clone();
            if other.lists[at] > 0 {
                other.lists[at] -= 1;
                files.refused(&other, (2, 0), format_args!("{name} short"));
            } else {
                other.lists[at] = 7;
                let read = files.compare(&other, format_args!("{name} of 7 bytes"));
                assert_eq!(read.number, 0);
            }
        }
    }
}

#[test]
fn lists_of_the_largest_file() {
    let mut files = Files::fixed("lists of the largest file");
    let holding = Row {
        side: 0,
        kind: 0,
        issuer: 0,
        maturity: 2025_01_02,
        value: 1,
        currency: 2,
        rating: 2,
    };
    let mut sheet = Sheet::of_rows(participant(VALUED), &[holding; 256], 0);
    for line in 0..512 {
        sheet.add_line(Line {
            long: line,
            short: 999_999 - line,
            amount: 1 + line,
        });
    }
    let file = File::exact(&text_of(&sheet), 256, 512);
    files.accepted(&file, &sheet, format_args!("exact"));
    for (at, name) in NAMES.iter().enumerate() {
        for less in [1, 7, 8] {
            let mut short = file.clone();
            short.lists[at] -= less;
            files.refused(&short, (2, 0), format_args!("{name} {less} bytes short"));
        }
        let mut longer = file.clone();
        longer.lists[at] += 9;
        files.accepted(&longer, &sheet, format_args!("{name} longer"));
    }
}

#[test]
fn lists_of_random_lengths() {
    let mut files = Files::new("lists of random lengths", 0x0902);
    for _ in 0..20_000 {
        let size = files.random.place(12);
        let sheet = best_sheet(&book(&mut files.random, &ANY, size));
        let mut file = File::exact(&text_of(&sheet), size, sheet.long.len());
        for length in &mut file.lists {
            *length += files.random.place(3) * files.random.place(12);
            if files.random.below(12) == 0 {
                *length = length.saturating_sub(1 + files.random.place(20));
            }
        }
        if files.random.below(12) == 0 {
            file.head = files.random.place(25);
        }
        file.answer = 14 + files.random.place(3) * files.random.place(5) + files.random.place(3);
        files.compare(&file, format_args!("{size} holdings"));
    }
    files.has_seen(&[0, 2], 4_000);
}
