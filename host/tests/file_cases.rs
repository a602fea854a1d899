//! The cases: what each must print first, what they reach together, and the files made of them.

mod support;

use std::collections::HashSet;
use std::fs;
use std::path::Path;

use margin_calculator::cases::{Case, all, stdin, stdout};
use margin_calculator::{print, read};
use support::Run;
use support::file::{File, Files};
use support::lent::Lent;

fn first_line(case: &Case) -> String {
    let printed = String::from_utf8(print(&case.text)).expect("ASCII");
    printed.split("\r\n").next().unwrap_or_default().to_string()
}

#[test]
fn each_case_prints_its_stated_line() {
    let mut stated = 0;
    for case in all() {
        let line = first_line(&case);
        if !case.first.is_empty() {
            assert_eq!(line, case.first, "{}", case.title);
            stated += 1;
        }
    }
    assert!(stated >= 150, "{stated} cases state their first line");
}

#[test]
fn the_cases_reach_every_refusal_of_a_file() {
    let mut seen = [0; 27];
    for case in all() {
        let line = first_line(&case);
        let number = match line.strip_prefix("X,") {
            Some(rest) => rest
                .split(',')
                .next()
                .expect("a number")
                .parse()
                .expect("a number"),
            None => 0,
        };
        seen[number] += 1;
    }
    for number in [3, 24, 25].into_iter().chain(7..=22) {
        assert!(seen[number] > 0, "no case with {number}: {seen:?}");
    }
    assert!(seen[0] >= 50, "{} cases are accepted", seen[0]);
    let unreached = [4, 5, 6, 23, 26].map(|number| seen[number]);
    assert_eq!(unreached, [0; 5], "no file reaches 4 to 6, 23 or 26");
}

#[test]
fn titles_and_lengths_fit_the_framing() {
    let cases = all();
    let mut titles = HashSet::new();
    for case in &cases {
        assert!(
            case.title.is_ascii() && case.title.len() <= 80,
            "{}",
            case.title
        );
        assert!(case.text.len() <= 65_537, "{}", case.title);
        assert!(titles.insert(&case.title), "{} twice", case.title);
    }
    // The program runs 4,000 at most.
    assert!(
        (150..=4_000).contains(&cases.len()),
        "{} cases",
        cases.len()
    );
    assert!(stdin(&cases).len() < 1_500_000);
}

#[test]
fn the_files_are_those_of_the_cases() {
    let folder = Path::new(env!("CARGO_MANIFEST_DIR")).join("../crates/cases");
    for (name, bytes) in [("stdin", stdin(&all())), ("stdout", stdout(&all()))] {
        let path = folder.join(name);
        let kept = fs::read(&path).expect("the file is there");
        assert!(
            kept == bytes,
            "{} is old: write it with `cargo run --release --bin cases -- {name}`",
            path.display()
        );
    }
}

#[test]
fn the_reader_on_each_case() {
    let mut files = Files::fixed("the reader on each case");
    for case in all() {
        files.compare(&File::of(&case.text), format_args!("{}", case.title));
    }
    files.has_seen(&[0, 3, 9, 18, 19, 20, 21, 22, 25], 1);
}

#[test]
fn the_check_on_each_case() {
    let mut run = Run::fixed("the check on each case");
    for case in all() {
        let Ok(sheet) = read(&case.text) else {
            continue;
        };
        let left = run.compare(&Lent::of(&sheet), format_args!("{}", case.title));
        let (first, second) = left.figures();
        let line = match left.number {
            0 => format!("M,{first},{second}"),
            number => format!("X,{number},{first},{second}"),
        };
        assert_eq!(line, first_line(&case), "{}", case.title);
    }
}
