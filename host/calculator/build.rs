//! Takes the Rust examples out of the README, for the documentation tests. The README as a whole is no
//! such test: its indented commands would be taken for Rust.

use std::path::Path;
use std::{env, fs};

fn main() {
    let folder = |name| env::var(name).expect("cargo sets it");
    let readme = Path::new(&folder("CARGO_MANIFEST_DIR")).join("../../README.md");
    println!("cargo::rerun-if-changed=build.rs");
    println!("cargo::rerun-if-changed={}", readme.display());
    let text = fs::read_to_string(&readme).expect("the README is there");
    let examples = rust_blocks(&text);
    if examples.is_empty() {
        println!("cargo::error={} has no example in Rust", readme.display());
    }
    let copy = Path::new(&folder("OUT_DIR")).join("readme.md");
    fs::write(copy, examples).expect("cargo's folder can be written");
}

/// The fenced blocks of Rust with their fences.
fn rust_blocks(text: &str) -> String {
    let mut blocks = String::new();
    let mut inside = false;
    for line in text.lines() {
        inside |= line == "```rust";
        if inside {
            blocks += line;
            blocks.push('\n');
        }
        inside &= line != "```";
    }
    blocks
}
