//! Writes the input of the program `bookings`, or what it must print, to standard output.

use std::env;
use std::io::{self, Write};
use std::process::ExitCode;

use margin_calculator::histories::{all, stdin, stdout};

fn main() -> ExitCode {
    let bytes = match env::args().nth(1).as_deref() {
        Some("stdin") => stdin(&all()),
        Some("stdout") => stdout(&all()),
        _ => {
            eprintln!("usage: bookings stdin | bookings stdout");
            return ExitCode::FAILURE;
        }
    };
    match io::stdout().lock().write_all(&bytes) {
        Ok(()) => ExitCode::SUCCESS,
        Err(error) => {
            eprintln!("standard output: {error}");
            ExitCode::FAILURE
        }
    }
}
