//! The files that the program `cases` is given, and what it must print for them.
//!
//! [`stdin`] frames each case as two eight-byte little-endian numbers, the lengths of its title and of its
//! text, then the title and the text. [`stdout`] has for each case `# `, the title and CRLF, and then what
//! the calculator prints for the text.

use crate::print;

mod accounts;
mod books;
mod corporate;
mod dates;
mod fields;
mod foreign;
mod grammar;
mod judged;
mod limits;
mod paper;
mod provinces;
mod sound;

/// A file with a title.
#[derive(Clone, Debug)]
pub struct Case {
    /// What the file shows, in ASCII and at most 80 bytes.
    pub title: String,
    /// The file.
    pub text: Vec<u8>,
    /// The first line that must be printed, worked out by hand; empty where only the calculator says.
    pub first: String,
}

/// All cases, in the order in which they are run.
#[must_use]
pub fn all() -> Vec<Case> {
    let mut list = List::default();
    paper::add(&mut list);
    foreign::add(&mut list);
    corporate::add(&mut list);
    dates::add(&mut list);
    accounts::add(&mut list);
    provinces::add(&mut list);
    judged::add(&mut list);
    grammar::add(&mut list);
    fields::add(&mut list);
    limits::add(&mut list);
    books::add(&mut list);
    list.0
}

/// The input of the program.
#[must_use]
pub fn stdin(cases: &[Case]) -> Vec<u8> {
    let mut input = Vec::new();
    for case in cases {
        for part in [case.title.as_bytes(), &case.text] {
            input.extend((part.len() as u64).to_le_bytes());
        }
        input.extend(case.title.as_bytes());
        input.extend(&case.text);
    }
    input
}

/// What the program must print.
#[must_use]
pub fn stdout(cases: &[Case]) -> Vec<u8> {
    let mut output = Vec::new();
    for case in cases {
        output.extend(format!("# {}\r\n", case.title).into_bytes());
        output.extend(print(&case.text));
    }
    output
}

/// Titles, what is changed in a file, and the first line that must be printed.
type Table<Change, const COUNT: usize> = [(&'static str, &'static [Change], &'static str); COUNT];

/// Fields of records after their letters.
type Fields = &'static [&'static str];

/// Titles, holdings, lines, and the first line that must be printed.
type Files<const COUNT: usize> = [(&'static str, Fields, Fields, &'static str); COUNT];

/// Cases as they are gathered.
#[derive(Default)]
struct List(Vec<Case>);

impl List {
    fn add(
        &mut self,
        title: impl Into<String>,
        text: impl Into<Vec<u8>>,
        first: impl Into<String>,
    ) {
        self.0.push(Case {
            title: title.into(),
            text: text.into(),
            first: first.into(),
        });
    }
}
