//! Links the archives that the proved crates are built into: the check with the reader, and booking.
//!
//! They are `crates/host/out/libhost.a` and `crates/bookhost/out/libbookhost.a` of this repository, unless
//! the variable `MARGIN_ARCHIVE` has the paths of others, with colons between them.

use std::path::{Path, PathBuf};
use std::time::SystemTime;
use std::{env, fs};

/// The crates of the exported functions, each with an archive.
const CRATES: [&str; 2] = ["host", "bookhost"];

fn main() {
    println!("cargo::rerun-if-changed=build.rs");
    println!("cargo::rerun-if-env-changed=MARGIN_ARCHIVE");
    if let Err(fault) = known_target().and_then(|()| link()) {
        println!("cargo::error={fault}");
    }
}

/// The archive holds machine code for one sort of machine and its calling convention.
fn known_target() -> Result<(), String> {
    let target =
        ["ARCH", "POINTER_WIDTH", "OS"].map(|part| variable(&format!("CARGO_CFG_TARGET_{part}")));
    if target == ["x86_64", "64", "linux"] {
        return Ok(());
    }
    let target = variable("TARGET");
    Err(format!(
        "the margin check is built for x86-64 Linux and cannot be linked for {target}"
    ))
}

fn link() -> Result<(), String> {
    let archives = match env::var_os("MARGIN_ARCHIVE") {
        Some(paths) => env::split_paths(&paths).collect(),
        None => CRATES
            .iter()
            .map(|name| archive_of_the_repository(name))
            .collect::<Result<Vec<PathBuf>, String>>()?,
    };
    archives.iter().try_for_each(|archive| link_one(archive))
}

fn link_one(archive: &Path) -> Result<(), String> {
    println!("cargo::rerun-if-changed={}", archive.display());
    let (Some(folder), Some(name), true) =
        (archive.parent(), archive.file_name(), archive.is_file())
    else {
        return Err(format!(
            "MARGIN_ARCHIVE names {}, which is no file",
            archive.display()
        ));
    };
    println!("cargo::rustc-link-search=native={}", folder.display());
    println!("cargo::rustc-link-lib=static:+verbatim={}", name.display());
    Ok(())
}

/// The archive in a crate's `out`, which must be there and not be older than what it is proved from.
fn archive_of_the_repository(name: &str) -> Result<PathBuf, String> {
    let package = PathBuf::from(variable("CARGO_MANIFEST_DIR"));
    let root = package.parent().expect("a folder of the repository");
    let archive = root.join(format!("crates/{name}/out/lib{name}.a"));
    let command = format!("run `rt lib` in the repository's crates/{name}");
    println!("cargo::rerun-if-changed={}", archive.display());
    let Some(built) = changed(&archive) else {
        return Err(format!("{} is missing: {command}", archive.display()));
    };
    match sources(root, name)?
        .iter()
        .find(|source| changed(source) > Some(built))
    {
        Some(source) => {
            let (archive, source) = (archive.display(), source.display());
            Err(format!("{archive} is older than {source}: {command}"))
        }
        None => Ok(archive),
    }
}

/// What the archive of a crate is proved from: the list of crates, and the sources and definitions of that
/// crate and of those that it is built on. A source has the code and its contracts, which cite the
/// definitions: after a change in any of them nobody has proved that the archive keeps the contracts as
/// they stand. Proofs and must-fail edits change neither code nor contract.
fn sources(root: &Path, name: &str) -> Result<Vec<PathBuf>, String> {
    let list = root.join("crates.txt");
    println!("cargo::rerun-if-changed={}", list.display());
    let text = fs::read_to_string(&list).map_err(|error| format!("{}: {error}", list.display()))?;
    let Some(below) = text.lines().find_map(|line| used_by(name, line)) else {
        return Err(format!("{} does not name the crate {name}", list.display()));
    };
    let mut sources = vec![list];
    for name in below.split_whitespace().chain([name]) {
        for part in ["src", "specs"] {
            let folder = root.join("crates").join(name).join(part);
            if let Ok(files) = fs::read_dir(&folder) {
                println!("cargo::rerun-if-changed={}", folder.display());
                sources.extend(files.flatten().map(|file| file.path()));
            }
        }
    }
    Ok(sources)
}

/// The crates that a line of the list names for a crate: `NAME staticlib: LIBRARY ..`.
fn used_by<'a>(name: &str, line: &'a str) -> Option<&'a str> {
    let (crate_line, below) = line.split_once(':')?;
    (crate_line.split_whitespace().next() == Some(name)).then_some(below)
}

/// When a file was last changed, if it is there.
fn changed(file: &Path) -> Option<SystemTime> {
    fs::metadata(file).and_then(|file| file.modified()).ok()
}

fn variable(name: &str) -> String {
    env::var(name).unwrap_or_default()
}
