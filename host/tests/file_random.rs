//! Random files, random changes to them, and random bytes: only the calculator says what comes out.

mod support;

use margin_calculator::samples::{Random, valuation_date};
use margin_calculator::{ACCOUNTS, CURRENCIES, FIELDS, ISSUERS, KINDS, SIDES, texts};
use support::file::{File, Files, LISTS, after_date};

/// Fields at which something changes in the paper, and some that are none.
#[rustfmt::skip]
const PROBES: [&str; 80] = [
    "", "0", "00", "007", "+1", "-1", " 1", "1 ", "1", "9", "12", "255", "256", "365", "36500", "43801",
    "2025-01-01", "2030-06-24", "2299-12-31", "2025-02-30", "0000-00-00", "9999-99-99", "20250101", "2025-1-01",
    "2025-01-1", "2025/01/01", "02025-01-01",
    "999999", "1000000", "0000000", "999999999999", "1000000000000", "18446744073709551616",
    "D", "H", "P", "h", "p", "c", "PC", "L", "S", "l", "B", "C", "R", "CA", "ON", "SK", "YT", "NU", "on",
    "US", "GB", "UK", "CAD", "USD", "GBP", "EUR", "usd", "Y", "N", "y", "YN",
    "5493001KJTIIGC8Y1R12", "5493001KJTIIGC8Y1R13", "5493001KJTIIGC8Y1R1", "5493001kjtiigc8y1r12",
    "7ZW8QJWVPR4P1J1KQY45", "00000000000000000001", "00000000000000000000", "ZZZZZZZZZZZZZZZZZZZZ",
    "\"\"", "x\"\"y", "\r\n", "a,b", "\t", "\u{7F}", "\u{80}", "\"",
];

/// Bytes at which something changes in the grammar.
const BYTES: &[u8] = b"\"\"\"\",,,,\r\n\r\n\r\n01- 9HPLSCAD\t\x00\x1F\x7E\x7F\x80\xFF\xEF!#+-";

/// A file as records of fields.
type Records = Vec<Vec<String>>;

fn numeral(random: &mut Random, most: u32) -> String {
    let digits = 1 + random.below(u64::from(most)) as u32;
    match random.below(8) {
        0 => "0".to_string(),
        1 => "9".repeat(digits as usize),
        2 => 10u64.pow(digits - 1).to_string(),
        _ => random.below(10u64.pow(digits)).to_string(),
    }
}

/// A date, or now and then any other text of its form.
fn date(random: &mut Random) -> String {
    let number = match random.below(8) {
        0 => random.below(100_000_000),
        _ => valuation_date(random),
    };
    texts::date_text(number)
}

fn head(random: &mut Random) -> Vec<String> {
    let mut fields = vec!["D".to_string(), date(random)];
    fields.push(random.pick(&ACCOUNTS).to_string());
    fields.resize(FIELDS, String::new());
    fields
}

/// A government without a rating or a corporation, one of a few or one of many, with one.
fn issuer_and_rating(random: &mut Random) -> [String; 2] {
    let corporation = match random.below(4) {
        0 => 100 + random.below(4),
        1 => random.bits() | 1 << 32,
        _ => return [random.pick(&ISSUERS), ""].map(str::to_string),
    };
    let rating = random.pick(&["Y", "N"]);
    [texts::issuer_text(corporation), rating.to_string()]
}

fn holding(random: &mut Random) -> Vec<String> {
    let [issuer, rating] = issuer_and_rating(random);
    let mut fields = vec![
        "H".to_string(),
        random.pick(&SIDES).to_string(),
        random.pick(&KINDS).to_string(),
        issuer,
        date(random),
        numeral(random, 12),
        numeral(random, 6),
        random.pick(&CURRENCIES).to_string(),
        rating,
    ];
    fields.resize(FIELDS, String::new());
    fields
}

fn line(random: &mut Random) -> Vec<String> {
    let mut fields = vec!["P".to_string(), numeral(random, 6), numeral(random, 6)];
    fields.push(numeral(random, 12));
    fields.resize(FIELDS, String::new());
    fields
}

fn random_records(random: &mut Random, holdings: usize, lines: usize) -> Records {
    let mut records = vec![head(random)];
    records.extend((0..holdings).map(|_| holding(random)));
    records.extend((0..lines).map(|_| line(random)));
    records
}

fn small_records(random: &mut Random) -> Records {
    let (holdings, lines) = (random.place(6), random.place(6));
    random_records(random, holdings, lines)
}

/// Changes records in one place.
fn change(random: &mut Random, records: &mut Records) {
    if records.is_empty() {
        records.push(vec![random.pick(&PROBES).to_string()]);
        return;
    }
    let (at, other) = (random.place(records.len()), random.place(records.len()));
    let field = random.place(records[at].len());
    match random.below(12) {
        0..4 => records[at][field] = random.pick(&PROBES).to_string(),
        4 => records[at].insert(field, random.pick(&PROBES).to_string()),
        5 => records[at].truncate(field.max(1)),
        6 => records.swap(at, other),
        7 => records.insert(at, records[other].clone()),
        8 => {
            let record = match random.below(3) {
                0 => holding(random),
                1 => line(random),
                _ => head(random),
            };
            records.insert(at, record);
        }
        9 => {
            let from = random.place(records[other].len());
            records[at][field] = records[other][from].clone();
        }
        _ => {
            // Another issuer or another rating, which need not fit the rest.
            let [issuer, rating] = issuer_and_rating(random);
            let (place, text) = random.pick(&[(3, &issuer), (8, &rating)]);
            if let Some(field) = records[at].get_mut(place) {
                field.clone_from(text);
            }
        }
    }
}

/// Writes records with quotes on none, some or all fields, with or without the last CRLF.
fn written(random: &mut Random, records: &Records) -> Vec<u8> {
    let quotes = random.pick(&[0, 0, 1, 4]);
    let mut text = Vec::new();
    for (at, record) in records.iter().enumerate() {
        if at > 0 {
            text.extend(b"\r\n");
        }
        for (at, field) in record.iter().enumerate() {
            if at > 0 {
                text.push(b',');
            }
            let quote = random.below(4) < quotes;
            let bytes = field.chars().map(|letter| letter as u32 as u8);
            text.extend(quote.then_some(b'"'));
            text.extend(bytes);
            text.extend(quote.then_some(b'"'));
        }
    }
    if random.below(2) == 0 && !records.is_empty() {
        text.extend(b"\r\n");
    }
    text
}

/// Changes a text in one place.
fn damage(random: &mut Random, text: &mut Vec<u8>) {
    let at = random.place(text.len() + 1);
    let byte = random.pick(BYTES);
    if at == text.len() {
        text.push(byte);
        return;
    }
    match random.below(9) {
        0 | 1 => text[at] = byte,
        2 | 3 => text.insert(at, byte),
        4 | 5 => {
            text.remove(at);
        }
        6 => text[at] ^= 1 << random.below(8),
        7 => text.truncate(at),
        _ => {
            let end = text.len().min(at + random.place(30));
            text.extend_from_within(at..end);
        }
    }
}

/// Lists that fit, are longer, or, now and then, shorter.
fn lend(random: &mut Random, text: &[u8], records: &Records) -> File {
    let count = |letter| records.iter().filter(|record| record[0] == letter).count();
    let mut file = File::exact(text, count("H"), count("P"));
    for length in &mut file.lists {
        if random.below(4) == 0 {
            *length += random.place(19);
        }
    }
    if random.below(12) == 0 {
        let at = random.place(LISTS);
        file.lists[at] = random.place(file.lists[at] + 1);
    }
    if random.below(12) == 0 {
        file.head = random.place(28);
    }
    file.answer = match random.below(12) {
        0 => random.place(21),
        _ => 16,
    };
    file
}

#[test]
fn random_files() {
    let mut files = Files::new("random files", 0x0A01);
    for round in 0..25_000 {
        let random = &mut files.random;
        let records = small_records(random);
        let text = written(random, &records);
        let file = lend(random, &text, &records);
        let roomy = File::of(&text);
        files.compare(&file, format_args!("round {round}"));
        if round % 4 == 0 {
            let read = files.compare(&roomy, format_args!("round {round}"));
            assert_eq!(read.number, 0, "every random file is read");
            let counted = read.figures().map(|(holdings, lines)| holdings + lines);
            assert_eq!(counted, Some(records.len() as u64 - 1));
        }
    }
    files.has_seen(&[0], 15_000);
    files.has_seen(&[2], 1_000);
}

#[test]
fn random_files_with_changed_fields() {
    let mut files = Files::new("changed fields", 0x0A02);
    for round in 0..20_000 {
        let random = &mut files.random;
        let records = small_records(random);
        for changes in [1, 1, 2, 3] {
            let random = &mut files.random;
            let mut changed = records.clone();
            for _ in 0..changes {
                change(random, &mut changed);
            }
            let text = written(random, &changed);
            let file = lend(random, &text, &changed);
            files.compare(&file, format_args!("round {round}, {changes} changes"));
        }
    }
    files.has_seen(&[0, 2, 19, 20, 21, 22, 25], 1_000);
}

#[test]
fn random_files_with_changed_bytes() {
    let mut files = Files::new("changed bytes", 0x0A03);
    for round in 0..20_000 {
        let random = &mut files.random;
        let records = small_records(random);
        let text = written(random, &records);
        for changes in [1, 1, 1, 2, 3] {
            let random = &mut files.random;
            let mut changed = text.clone();
            for _ in 0..changes {
                damage(random, &mut changed);
            }
            let file = lend(random, &changed, &records);
            files.compare(&file, format_args!("round {round}, {changes} changes"));
        }
    }
    files.has_seen(&[0, 19, 20, 21, 25], 1_000);
    files.has_seen(&[2], 500);
}

#[test]
fn large_random_files_with_changes() {
    let mut files = Files::new("large files", 0x0A06);
    for round in 0..300 {
        let random = &mut files.random;
        let holdings = random.pick(&[3, 255, 256, 256, 257]);
        let lines = random.pick(&[3, 510, 511, 512, 512, 513]);
        let mut records = random_records(random, holdings, lines);
        for _ in 0..random.below(3) {
            change(random, &mut records);
        }
        let text = written(random, &records);
        for damages in [0, 0, 1] {
            let random = &mut files.random;
            let mut damaged = text.clone();
            for _ in 0..damages {
                damage(random, &mut damaged);
            }
            let file = lend(random, &damaged, &records);
            files.compare(&file, format_args!("round {round}, {damages} damages"));
        }
    }
    files.has_seen(&[0, 2, 3, 9, 19, 20, 21, 22], 10);
}

#[test]
fn random_bytes() {
    let mut files = Files::new("random bytes", 0x0A04);
    let alphabets: [&[u8]; 5] = [
        BYTES,
        b"\",\r\n0",
        b",,,,,,,,,,,,,,,,,,\r\n\"0HP",
        b"DHPLSBCRONUSD,,,,,,,,-0123456789",
        b",\"",
    ];
    for round in 0..80_000 {
        let random = &mut files.random;
        let length = random.place(48);
        let mut text = Vec::with_capacity(length);
        let alphabet = random.pick(&alphabets);
        for _ in 0..length {
            let any = round % 8 == 0;
            text.push(if any {
                random.bits() as u8
            } else {
                random.pick(alphabet)
            });
        }
        if round % 2 == 0 {
            text = after_date(text);
        }
        files.compare(&File::exact(&text, 0, 0), format_args!("round {round}"));
    }
    files.has_seen(&[19, 20, 21], 200);
}

#[test]
fn long_random_texts() {
    let mut files = Files::new("long random texts", 0x0A05);
    let records = [
        texts::line("0,1,1"),
        texts::holding("L,C,CA,2025-01-02,1,0"),
    ];
    let [line, holding] = records.map(|record| record + "\r\n");
    for round in 0..600 {
        let random = &mut files.random;
        let mut whole = small_records(random);
        let length = 65_530 + random.place(12);
        let filler = random.pick(&[",", "x", "\"\"", "\"", "\r\n", &line, &holding]);
        if random.below(4) == 0 {
            change(random, &mut whole);
        }
        let mut text = written(random, &whole);
        while text.len() < length {
            text.extend(filler.as_bytes());
        }
        if random.below(2) == 0 {
            text.truncate(length);
        }
        let mut file = File::exact(&text, 10, 10);
        file.answer = random.pick(&[16, 16, 15, 20]);
        files.compare(&file, format_args!("round {round}"));
    }
    files.has_seen(&[9, 18, 19, 20, 21, 22], 10);
}
