//! Legal entity identifiers: which texts are one, what a damaged one is refused with, and the lists that the LEIs
//! of a file go to.

mod support;

use std::collections::HashMap;

use margin_calculator::samples::Random;
use margin_calculator::texts::{PRINTED, dated, holding, issuer_text, joined, line, rated};
use margin_calculator::{PUBLISHED, margin_leis, with_check_digits};
use margin_host::{InvalidLei, Issuer, Lei, raw};
use support::file::{File, Files, after_date};
use support::lent::pattern;

const DIGITS: &[u8] = b"0123456789";
const CAPITALS: &[u8] = b"ABCDEFGHIJKLMNOPQRSTUVWXYZ";
const LENGTH: usize = 20;
/// Bytes before and after each list that nobody may write.
const GUARD: usize = 13;

/// A record of a corporation by the bytes of its issuer.
fn corporate(issuer: &[u8]) -> Vec<u8> {
    [b"H,L,B,", issuer, b",2030-06-24,1000,0,CAD,Y"].concat()
}

/// The number that both readers give a file of one holding with this issuer; the wrapper must agree.
fn number_of(files: &mut Files, issuer: &[u8]) -> u64 {
    let file = File::exact(&after_date(corporate(issuer)), 1, 0);
    let what = format_args!("{}", issuer.escape_ascii());
    let number = files.compare(&file, what).number;
    let known = Lei::from_bytes(issuer).is_some();
    assert_eq!(known, number == 0, "{what}: the wrapper");
    number
}

/// The remainder by 97 of the number that is written, by Rust's own integers of 128 bits.
fn remainder(lei: &str) -> u128 {
    let digits: String = lei
        .chars()
        .map(|character| {
            character
                .to_digit(36)
                .expect("a digit or a letter")
                .to_string()
        })
        .collect();
    digits.parse::<u128>().expect("at most 38 digits") % 97
}

#[test]
fn published_ones() {
    let mut files = Files::fixed("published LEIs");
    for text in PUBLISHED {
        assert_eq!(remainder(text), 1, "{text}");
        assert_eq!(number_of(&mut files, text.as_bytes()), 0, "{text}");
        assert_eq!(with_check_digits(&text[..18]), text);
    }
}

#[test]
fn one_other_character() {
    // Another of its kind is always found; a digit for a capital, or a capital for a digit, may make another good
    // LEI, and is then one.
    let mut files = Files::fixed("one other character");
    let mut good = 0;
    for text in PUBLISHED {
        for at in 0..LENGTH {
            let there = text.as_bytes()[at];
            for &other in DIGITS.iter().chain(CAPITALS) {
                if other == there {
                    continue;
                }
                let mut damaged = text.as_bytes().to_vec();
                damaged[at] = other;
                let number = number_of(&mut files, &damaged);
                let same_kind = other.is_ascii_digit() == there.is_ascii_digit();
                let damaged = String::from_utf8(damaged).expect("ASCII");
                let wanted = match (at, same_kind) {
                    (18.., false) => 21,
                    (_, true) => 25,
                    _ if remainder(&damaged) == 1 => 0,
                    _ => 25,
                };
                assert_eq!(number, wanted, "{damaged}");
                good += usize::from(number == 0);
            }
        }
    }
    assert!(good > 0, "some damages make another LEI");
}

#[test]
fn two_neighbours_exchanged() {
    let mut files = Files::fixed("two neighbours exchanged");
    for text in PUBLISHED {
        for at in 0..LENGTH - 1 {
            let mut damaged = text.as_bytes().to_vec();
            damaged.swap(at, at + 1);
            let [one, other] = [at, at + 1].map(|at| text.as_bytes()[at].is_ascii_digit());
            let number = number_of(&mut files, &damaged);
            if damaged == text.as_bytes() {
                assert_eq!(number, 0, "{text} at {at}");
            } else if one == other {
                assert_eq!(number, 25, "{text} at {at}");
            }
        }
    }
}

#[test]
fn every_byte_at_every_place() {
    let mut files = Files::fixed("every byte at every place of an LEI");
    for text in PUBLISHED {
        for at in 0..LENGTH {
            for byte in 0..=255u8 {
                let mut changed = text.as_bytes().to_vec();
                changed[at] = byte;
                let number = number_of(&mut files, &changed);
                let in_form = byte.is_ascii_digit() || byte.is_ascii_uppercase() && at < 18;
                let wanted = match byte {
                    _ if in_form => [0, 25],
                    b',' => [20; 2],
                    b'"' | 0..32 | 127.. => [19; 2],
                    _ => [21; 2],
                };
                assert!(wanted.contains(&number), "{number} for {byte} at {at}");
            }
        }
    }
}

#[test]
fn texts_of_every_length() {
    let mut files = Files::fixed("texts of every length");
    for text in PUBLISHED {
        let twice = text.repeat(2);
        for length in 0..=twice.len() {
            let number = number_of(&mut files, &twice.as_bytes()[..length]);
            assert_eq!(number, if length == LENGTH { 0 } else { 21 }, "{length}");
            let end = &twice.as_bytes()[twice.len() - length..];
            let number = number_of(&mut files, end);
            assert_eq!(number, if length == LENGTH { 0 } else { 21 }, "{length}");
        }
        for other in [
            text.to_lowercase(),
            format!(" {text}"),
            format!("{text} "),
            format!("{} {}", &text[..4], &text[4..]),
            format!("{}-{}", &text[..4], &text[5..]),
        ] {
            assert_eq!(number_of(&mut files, other.as_bytes()), 21, "{other}");
        }
    }
}

#[test]
fn all_check_digits() {
    // Of a hundred pairs of digits one is good, or two, 97 apart.
    let mut files = Files::new("all check digits", 0x1101);
    let mut firsts: Vec<String> = PUBLISHED.map(|text| text[..18].to_string()).to_vec();
    firsts.extend(["0", "9", "A", "Z"].map(|character| character.repeat(18)));
    firsts.extend((0..97).map(|number| format!("{number:018}")));
    for _ in 0..100 {
        let number = files.random.bits() | 1 << 63;
        firsts.push(issuer_text(number)[..18].to_string());
    }
    let mut twice = 0;
    for first in &firsts {
        let mut good = Vec::new();
        for digits in 0..100 {
            let lei = format!("{first}{digits:02}");
            let number = number_of(&mut files, lei.as_bytes());
            let wanted = if remainder(&lei) == 1 { 0 } else { 25 };
            assert_eq!(number, wanted, "{lei}");
            good.extend((number == 0).then_some(digits));
        }
        match good[..] {
            [one] => assert!((2..=98).contains(&one), "{first}: {one}"),
            [one, other] => {
                assert_eq!(one + 97, other, "{first}");
                twice += 1;
            }
            _ => panic!("{first}: {good:?}"),
        }
    }
    assert!(twice >= 3, "check digits 00, 01 and 99 are seen");
}

#[test]
fn a_list_of_every_length() {
    let texts: [(Vec<u8>, usize); 4] = [
        (joined(&PRINTED), 0),
        (file_of(&[PUBLISHED[0]]), 1),
        (
            file_of(&[PUBLISHED[1], "ON", PUBLISHED[1], PUBLISHED[0]]),
            2,
        ),
        (file_of(&PUBLISHED), 5),
    ];
    for (text, count) in &texts {
        for leis in 0..=LENGTH * count + 33 {
            let (number, places) = both(text, leis, 16);
            if leis < LENGTH * count {
                assert_eq!((number, places), (2, Some((0, 0))), "{count}, {leis} bytes");
            } else {
                let wanted = (0, Some((*count as u64, 0)));
                assert_eq!((number, places), wanted, "{count}, {leis} bytes");
            }
        }
        for answer in 0..=24 {
            for leis in [0, LENGTH * count, 200] {
                let (number, _) = both(text, leis, answer);
                let short = answer < 16 || leis < LENGTH * count;
                assert_eq!(
                    number,
                    if short { 2 } else { 0 },
                    "{count}, {leis}, {answer}"
                );
            }
        }
    }
}

#[test]
fn the_longest_list() {
    let texts: Vec<String> = (100..356).map(issuer_text).collect();
    let all: Vec<&str> = texts.iter().map(String::as_str).collect();
    let text = file_of(&all);
    for (leis, number) in [
        (5_119, 2),
        (5_100, 2),
        (0, 2),
        (5_120, 0),
        (5_121, 0),
        (9_000, 0),
    ] {
        let count = if number == 0 { 256 } else { 0 };
        assert_eq!(
            both(&text, leis, 16),
            (number, Some((count, 0))),
            "{leis} bytes"
        );
    }
    let mut list = [0; 5_120];
    assert_eq!(raw::margin_leis(&text, &mut list, &mut [0; 16]), 0);
    assert_eq!(list, *texts.concat().as_bytes());
}

#[test]
fn refusals_are_the_readers() {
    // The number and the place of the reader, whatever the list is; a short answer is kept.
    let (one, rated) = (holding("L,C,CA,2025-01-02,1,0"), |text: &str| {
        rated("Y", &format!("L,C,{text},2025-01-02,1,0"))
    });
    let good = rated(PUBLISHED[0]);
    let texts: [(Vec<u8>, (u64, u64)); 13] = [
        (vec![b','; 65_537], (18, 0)),
        (Vec::new(), (22, 0)),
        (dated(&[&good, "\t"]), (19, 2)),
        (dated(&[&good, "H"]), (20, 2)),
        (dated(&[&good, &rated("YT")]), (21, 2)),
        (dated(&[&good, &rated("5493001KJTIIGC8Y1R13")]), (25, 2)),
        (dated(&[&good, &rated("CA")]), (25, 2)),
        (dated(&[&line("0,1,1"), &good]), (22, 2)),
        (dated(&[&line("0,1,1"), &rated("CA")]), (25, 2)),
        (joined(&[&good]), (22, 0)),
        (joined(&[rated("CA")]), (25, 0)),
        (dated(&vec![good.clone(); 257]), (3, 0)),
        (dated(&vec![line("0,1,1"); 513]), (9, 0)),
    ];
    for (text, (number, place)) in &texts {
        for leis in [0, 19, 20, 5_120] {
            for answer in [0, 15, 16, 17, 24] {
                let places = (answer >= 16).then_some((*place, 0));
                let what = format!("{number}, {leis} and {answer} bytes");
                assert_eq!(both(text, leis, answer), (*number, places), "{what}");
            }
        }
    }
    // Ranges are the check's: a file that it refuses is read, and has its LEIs.
    let unreal = joined(&[
        "D,2025-02-29,P,,,,,,",
        &good.replace(",1,0", ",0,99999"),
        &one,
    ]);
    assert_eq!(both(&unreal, 20, 16), (0, Some((1, 0))));
}

#[test]
fn the_list_has_what_the_column_numbers() {
    let mut files = Files::new("the LEIs of the issuers", 0x1102);
    for _ in 0..2_000 {
        let random = &mut files.random;
        let (size, most) = (random.place(40), 1 + random.below(40));
        let issuers: Vec<String> = (0..size).map(|_| issuer(random, most)).collect();
        let bare: Vec<&str> = issuers.iter().map(String::as_str).collect();
        let text = file_of(&bare);
        let read = files.compare(&File::exact(&text, size, 0), format_args!("{bare:?}"));
        let mut list = vec![0; LENGTH * size];
        let mut answer = [0; 16];
        assert_eq!(raw::margin_leis(&text, &mut list, &mut answer), 0);
        let mut numbers = HashMap::new();
        for (text, number) in bare.iter().zip(&read.sheet().issuer) {
            let text = text.trim_matches('"');
            if text.len() == LENGTH {
                let place = LENGTH * (*number as usize - 100);
                assert_eq!(&list[place..place + LENGTH], text.as_bytes());
                let next = 100 + numbers.len() as u64;
                assert_eq!(*numbers.entry(text).or_insert(next), *number);
            } else {
                assert!(*number <= 12, "{text}");
            }
        }
        assert_eq!(
            answer.as_chunks().0[0],
            (numbers.len() as u64).to_le_bytes()
        );
    }
}

/// Demands that a file of bonds of these issuers, all corporations, gives them these numbers.
fn numbered(files: &mut Files, issuers: &[&str], numbers: &[u64]) {
    let file = File::exact(&file_of(issuers), issuers.len(), 0);
    let read = files.compare(&file, format_args!("{issuers:?}"));
    assert_eq!(read.number, 0, "{issuers:?}");
    assert_eq!(read.sheet().issuer, numbers, "{issuers:?}");
}

/// The characters of the same kind.
fn kind(character: u8) -> &'static [u8] {
    match character {
        b'0'..=b'9' => DIGITS,
        _ => CAPITALS,
    }
}

#[test]
fn near_ones_are_two_corporations() {
    // Two characters changed so that the remainder is 1 again, at every two places.
    let mut files = Files::fixed("near LEIs");
    for text in PUBLISHED {
        for at in 0..LENGTH {
            for second in at + 1..LENGTH {
                let mut near = text.as_bytes().to_vec();
                let mut found = 0;
                for &one in kind(text.as_bytes()[at]) {
                    for &other in kind(text.as_bytes()[second]) {
                        (near[at], near[second]) = (one, other);
                        let near = str::from_utf8(&near).expect("ASCII");
                        if near != text && remainder(near) == 1 {
                            numbered(&mut files, &[text, near, text, near], &[100, 101, 100, 101]);
                            found += 1;
                        }
                    }
                }
                // Two places of digits have a hundred texts, and few or none of another remainder of 1.
                let many = [at, second].map(|at| kind(text.as_bytes()[at]).len());
                assert!(found >= 1 || many.contains(&10), "{text}, {at}, {second}");
            }
        }
    }
    for [one, other] in [
        ["00000000000000000001", "00000000000000000098"],
        ["00000000000000006500", "00000000000000006597"],
        ["00000000000000003299", "00000000000000003202"],
    ] {
        numbered(&mut files, &[one, other, one], &[100, 101, 100]);
        numbered(&mut files, &[other, one, one], &[100, 101, 101]);
    }
}

#[test]
fn another_kind_of_character_is_another_corporation() {
    let mut files = Files::fixed("another kind of character");
    let mut found = 0;
    for number in 100..1_100 {
        let text = issuer_text(number);
        for at in 0..18 {
            for &other in DIGITS.iter().chain(CAPITALS) {
                let mut near = text.clone().into_bytes();
                near[at] = other;
                let near = String::from_utf8(near).expect("ASCII");
                if near != text && remainder(&near) == 1 {
                    numbered(
                        &mut files,
                        &[&text, &near, &near, &text],
                        &[100, 101, 101, 100],
                    );
                    found += 1;
                }
            }
        }
    }
    assert!(found > 1_000, "{found} LEIs that differ in one character");
}

#[test]
fn halves_of_others() {
    // Four LEIs of two beginnings and two ends: all are good, and each is a corporation of its own.
    let mut files = Files::new("halves of others", 0x1103);
    for _ in 0..50 {
        let [first, second] = [(); 2].map(|()| {
            let whole = issuer_text(files.random.bits() | 1 << 63);
            whole[..10].to_string()
        });
        let random = &mut files.random;
        let mut end = |begin: &str| loop {
            let whole = issuer_text(random.bits() | 1 << 63);
            let end = &whole[10..];
            if remainder(&format!("{begin}{end}")) == 1 {
                return end.to_string();
            }
        };
        let ends = [end(&first), end(&first)];
        // Another beginning that is as good with both ends.
        let mut other = second.into_bytes();
        let other = (0..10_000).find_map(|number| {
            other[..4].copy_from_slice(format!("{number:04}").as_bytes());
            let begin = str::from_utf8(&other).expect("ASCII");
            let good = |end: &String| remainder(&format!("{begin}{end}")) == 1;
            ends.iter().all(good).then(|| begin.to_string())
        });
        let other = other.expect("one of 97");
        let mut all = Vec::new();
        for begin in [&first, &other] {
            all.extend(ends.each_ref().map(|end| format!("{begin}{end}")));
        }
        let all: Vec<&str> = all.iter().map(String::as_str).collect();
        for order in [[0, 1, 2, 3], [0, 3, 1, 2], [3, 0, 2, 1], [1, 2, 0, 3]] {
            let issuers = order.map(|at| all[at]);
            numbered(&mut files, &issuers, &[100, 101, 102, 103]);
        }
    }
}

/// A government, or one of so many corporations, now and then in quotes.
fn issuer(random: &mut Random, most: u64) -> String {
    let text = match random.below(3) {
        0 => issuer_text(random.below(13)),
        _ => issuer_text(100 + random.below(most)),
    };
    match random.below(3) {
        0 => format!("\"{text}\""),
        _ => text,
    }
}

/// A file of a bond of each of these issuers.
fn file_of(issuers: &[&str]) -> Vec<u8> {
    let records: Vec<String> = issuers
        .iter()
        .map(|issuer| {
            let rating = if issuer.len() < LENGTH { "" } else { "Y" };
            rated(rating, &format!("L,B,{issuer},2030-06-24,1000,0"))
        })
        .collect();
    dated(&records)
}

/// The number that both give, and the numbers of an answer that has them. Both must leave the same bytes, between
/// guards, and write nothing but the LEIs of a file that is read and the first 16 bytes of the answer.
fn both(text: &[u8], leis: usize, answer: usize) -> (u64, Option<(u64, u64)>) {
    let lent = pattern(3 * GUARD + leis + answer, 0x51);
    let [list, numbers] = [
        GUARD..GUARD + leis,
        2 * GUARD + leis..2 * GUARD + leis + answer,
    ];
    let [ours, calculated] = [raw::margin_leis, margin_leis].map(|call| {
        let mut bytes = lent.clone();
        let (front, back) = bytes.split_at_mut(GUARD + leis);
        let number = call(text, &mut front[GUARD..], &mut back[GUARD..GUARD + answer]);
        (number, bytes)
    });
    assert!(ours == calculated, "{leis} and {answer} bytes");
    let (number, mut bytes) = ours;
    let places = bytes[numbers.clone()].as_chunks::<8>().0;
    let places = match places {
        [first, second, ..] => Some((u64::from_le_bytes(*first), u64::from_le_bytes(*second))),
        _ => None,
    };
    let written = match (number, places) {
        (0, Some((count, _))) => LENGTH * count as usize,
        _ => 0,
    };
    let answered = if answer < 16 { 0 } else { 16 };
    for (start, length) in [(list.start, written), (numbers.start, answered)] {
        bytes[start..start + length].copy_from_slice(&lent[start..start + length]);
    }
    assert!(
        bytes == lent,
        "bytes that are not to be written: {leis} and {answer} bytes"
    );
    (number, places)
}

#[test]
fn the_wrappers_own() {
    for text in PUBLISHED {
        let lei: Lei = text.parse().expect("an LEI");
        assert_eq!((lei.as_str(), lei.to_string()), (text, text.to_string()));
        assert_eq!(Lei::new(text), Some(lei));
        assert_eq!(text.parse(), Ok(Issuer::Corporation(lei)));
        assert_eq!(Issuer::Corporation(lei).to_string(), text);
        assert_eq!(Issuer::Corporation(lei).number(), None);
        assert_eq!(
            format!("{lei:>22}|{lei:<21}|"),
            format!("  {text}|{text} |")
        );
        assert_eq!(format!("{lei:?}"), format!("Lei(\"{text}\")"));
    }
    let mut sorted = PUBLISHED.map(|text| Lei::new(text).expect("an LEI"));
    sorted.sort_unstable();
    assert!(sorted.iter().map(Lei::as_str).is_sorted());
    for text in [
        "",
        "CA",
        "5493001KJTIIGC8Y1R1",
        "5493001KJTIIGC8Y1\u{e9}12",
        "5493001kjtiigc8y1r12",
    ] {
        assert!(text.parse::<Lei>().is_err(), "{text}");
        assert_eq!(Lei::new(text), None, "{text}");
    }
    assert_eq!(Lei::from_bytes(&[0xFF; 20]), None);
}

#[test]
fn an_invalid_one_in_words() {
    let invalid: InvalidLei = "5493001KJTIIGC8Y1R13".parse::<Lei>().expect_err("no LEI");
    let error: &dyn std::error::Error = &invalid;
    let words = "invalid LEI \"5493001KJTIIGC8Y1R13\": it must be 18 capitals or digits and 2 check \
                 digits that fit them";
    assert_eq!(error.to_string(), words);
}
