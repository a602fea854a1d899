//! Document 02 e) in the file: the letter of the account, which is the third field of D and of nothing else.

mod support;

use margin_calculator::samples::{SHAPES, best_sheet, book};
use margin_calculator::texts::{PRINTED, head, joined, of_width, text_of};
use margin_calculator::{ACCOUNTS, CLIENT, FIELDS, PARTICIPANT, VALUED, client, participant, read};
use support::file::{File, Files, with_field};

/// The field of the letter.
const LETTER: usize = 2;

/// The printed file with another first record.
fn headed(head: &[u8]) -> Vec<u8> {
    [head, b"\r\n", &joined(&PRINTED[1..])].concat()
}

/// The printed file and the empty book with another text for the letter, and how many holdings and lines they have.
fn lettered(text: &str) -> [(Vec<u8>, usize, usize); 2] {
    let head = with_field(PRINTED[0], LETTER, text.as_bytes());
    [(headed(&head), 3, 2), (head, 0, 0)]
}

#[test]
fn the_two_letters() {
    let mut files = Files::fixed("the two letters");
    for (text, head) in [
        ("P", participant(VALUED)),
        ("C", client(VALUED)),
        ("\"P\"", participant(VALUED)),
        ("\"C\"", client(VALUED)),
    ] {
        for (text, holdings, lines) in lettered(text) {
            let read = files.compare(
                &File::exact(&text, holdings, lines),
                format_args!("{head:?}"),
            );
            assert_eq!((read.number, read.sheet().head), (0, head));
            assert_eq!(
                read.figures(),
                Some((holdings as u64, lines as u64)),
                "{head:?}"
            );
        }
    }
}

#[test]
fn texts_that_are_no_letter() {
    let mut files = Files::fixed("no letter of an account");
    #[rustfmt::skip]
    let texts = [
        "", " ", "p", "c", "PC", "CP", "PP", "CC", " P", "P ", " C", "C ", "P P", "0", "1", "2", "00", "-", "D", "H",
        "L", "S", "Y", "N", "B", "R", "O", "Q", "Participant", "Client", "client", "2025-01-01", "P\r\n", "P,", "\"\"",
        "P\"\"", "\"\"P\"\"",
    ];
    for text in texts {
        // A line end, a comma or a quote can only stand in quotes.
        let in_quotes = format!("\"{text}\"");
        let bare = (!text.contains(['\r', ',', '"'])).then_some(text);
        for text in bare.into_iter().chain([in_quotes.as_str()]) {
            for (file, ..) in lettered(text) {
                files.refused(&File::of(&file), (21, 0), format_args!("{text:?}"));
            }
        }
    }
}

#[test]
fn the_letter_in_another_field() {
    let mut files = Files::fixed("the letter in another field");
    let mut records = vec![
        "D,P,2025-01-01,,,,,,".to_string(),
        "D,2025-01-01P,,,,,,,".to_string(),
        "P,2025-01-01,D,,,,,,".to_string(),
        "DP,2025-01-01,,,,,,,".to_string(),
    ];
    for account in ACCOUNTS {
        for at in (0..FIELDS).filter(|at| *at != LETTER) {
            // In place of what is there, with the letter where it must be and without it.
            for letter in [account, ""] {
                let mut fields: Vec<&str> = PRINTED[0].split(',').collect();
                (fields[LETTER], fields[at]) = (letter, account);
                records.push(fields.join(","));
            }
        }
    }
    for record in &records {
        let what = format_args!("{record}");
        files.refused(&File::of(record.as_bytes()), (21, 0), what);
        files.refused(&File::of(&headed(record.as_bytes())), (21, 0), what);
    }
}

#[test]
fn the_turn_of_the_letter() {
    // With 21 among the refusals of its record, and before all of later records and the check's 24.
    let mut files = Files::fixed("the turn of the letter");
    let sound = PRINTED;
    let bad = head("2025-01-01", "X");
    let unreal = head("2025-02-29", "X");
    let (ill, wide) = (format!("{bad}\t"), of_width(&bad, FIELDS + 1));
    let narrow = of_width(&bad, FIELDS - 1);
    let [participants, clients] = ACCOUNTS.map(|account| head("2025-01-01", account));
    for (records, wanted) in [
        (&[ill.as_str(), "\""][..], (19, 0)),
        (&[&wide, sound[1]], (20, 0)),
        (&[&narrow, sound[1]], (20, 0)),
        (&[&bad, "\""], (21, 0)),
        (&[&bad, "H"], (21, 0)),
        (&[&unreal], (21, 0)),
        (&[&bad, sound[0]], (21, 0)),
        // A second head is out of order whatever its letter, if that is one.
        (&[&participants, &clients], (22, 1)),
        (&[&clients, &clients], (22, 1)),
        (&[&clients, sound[1], &participants], (22, 2)),
        (&[&clients, &bad], (21, 1)),
        (&[&clients, sound[1], sound[4], &bad], (21, 3)),
    ] {
        let text = joined(records);
        files.refused(&File::of(&text), wanted, format_args!("{records:?}"));
    }
    files.refused(
        &File::of(unreal.replace('X', "C").repeat(65_536).as_bytes()),
        (18, 0),
        format_args!("too long"),
    );
}

#[test]
fn holdings_and_lines_are_read_alike_in_both_accounts() {
    let mut files = Files::new("both accounts", 0x1203);
    for shape in &SHAPES {
        for size in [0, 1, 4, 40, 256] {
            let mut sheet = best_sheet(&book(&mut files.random, shape, size)).renumbered();
            let texts = [PARTICIPANT, CLIENT].map(|letter| {
                sheet.head.letter = letter;
                let text = text_of(&sheet);
                let file = File::exact(&text, size, sheet.long.len());
                files.accepted(&file, &sheet, format_args!("{}, {letter}", shape.name));
                assert_eq!(read(&text).as_ref(), Ok(&sheet), "{}", shape.name);
                text
            });
            let [one, other] = &texts;
            let differ = one.iter().zip(other).filter(|(one, other)| one != other);
            assert_eq!((one.len(), differ.count()), (other.len(), 1));
        }
    }
}
