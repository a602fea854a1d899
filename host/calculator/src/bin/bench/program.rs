//! The program `margin` as a process, beside an empty program, which shows what a process costs. Their
//! paths are the first and the second argument, or in the variables `MARGIN` and `MARGIN_EMPTY`.

use std::env;
use std::ffi::OsString;
use std::fs::{self, File};
use std::path::Path;
use std::process::{Command, Stdio};
use std::time::Instant;

use margin_calculator::print;
use margin_calculator::texts::joined;

use crate::read::full_file;
use crate::timing::median;

const RUNS: usize = 101;

/// Prints a line for the empty book and one for a full file.
pub fn run() {
    let Some(margin) = given(1, "MARGIN") else {
        println!("The program `margin` is not timed: give its path as an argument or in MARGIN.");
        return;
    };
    let empty = given(2, "MARGIN_EMPTY");
    println!("The program as a process, from its start to its end, the file as standard input.");
    match empty {
        Some(_) => println!("Its own time is its median less that of the empty program."),
        None => {
            println!("For its own time give an empty program as argument 2 or in MARGIN_EMPTY.")
        }
    }
    println!("Microseconds; median of {RUNS} alternating runs.");
    println!();
    println!(
        "{:<10} {:>6}  {:>8}  {:>13}  {:>8}",
        "file", "bytes", "margin", "empty program", "own time"
    );
    let full = full_file();
    let texts = [
        ("no holding", joined(&full[..1])),
        ("full file", joined(&full)),
    ];
    let times = measure(&texts, &margin, empty.as_ref());
    for ((name, text), [ours, theirs]) in texts.iter().zip(times) {
        let ours = median(ours);
        print!("{name:<10} {:>6}  {ours:>8.1}", text.len());
        if !theirs.is_empty() {
            let theirs = median(theirs);
            print!("  {theirs:>13.1}  {:>8.1}", ours - theirs);
        }
        println!();
    }
}

/// The path of a program, if it is given and there.
fn given(argument: usize, variable: &str) -> Option<OsString> {
    let given = env::args_os().nth(argument);
    let given = given.or_else(|| env::var_os(variable));
    given.filter(|path| Path::new(path).is_file())
}

/// For each text the microseconds of the runs of `margin`, and of the empty program if there is one.
fn measure(
    texts: &[(&str, Vec<u8>); 2],
    margin: &OsString,
    empty: Option<&OsString>,
) -> [[Vec<f64>; 2]; 2] {
    let path = env::temp_dir().join(format!("margin-bench-{}", std::process::id()));
    let wanted = texts.each_ref().map(|(_, text)| print(text));
    let mut times = <[[Vec<f64>; 2]; 2]>::default();
    for _ in 0..RUNS {
        for (at, [ours, theirs]) in times.iter_mut().enumerate() {
            fs::write(&path, &texts[at].1).expect("a file for standard input");
            ours.push(time(margin, &path, &wanted[at]));
            theirs.extend(empty.map(|program| time(program, &path, b"")));
        }
    }
    fs::remove_file(&path).expect("the file is there");
    times
}

/// Microseconds of one run, which must print what is wanted.
fn time(program: &OsString, input: &Path, wanted: &[u8]) -> f64 {
    let input = File::open(input).expect("the file for standard input");
    let start = Instant::now();
    let done = Command::new(program)
        .stdin(Stdio::from(input))
        .output()
        .expect("the program starts");
    let time = start.elapsed();
    assert!(
        done.stdout == wanted,
        "{} prints what it must",
        program.display()
    );
    time.as_secs_f64() * 1e6
}
