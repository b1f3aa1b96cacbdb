//! Generates Rust from Rattle: `erase [--check]`.
//!
//! For each crate of the table, the program reads `lib.rt` and its modules, and writes them as Rust, which rustfmt lays
//! out. It writes the names for Rust and for C from their table, and the exports of the library for C, with what its
//! tests need of them. With `--check` it writes nothing, and ends with 1 if a file differs from what it would write.

mod c_names;
mod calls;
mod edit;
mod erase;
mod names;
mod table;
mod token;

use std::collections::{BTreeMap, BTreeSet};
use std::io::Write;
use std::path::Path;
use std::process::{Command, ExitCode, Stdio};
use std::{env, fs, io};
use table::Crate;

const TABLE: &str = "rust/names.tsv";
const COMMON_TABLE: &str = "rust/common_names.tsv";
const PAGE: &str = "docs/NAMES.md";
/// What stands before the list at the end of the page.
const LIST: &str = "<!-- rust/erase writes the list -->\n";
const FOR_C: &str = "crates/const_oid_c/src";
const C_NAMES: &str = include_str!("c_names.h");
const C_COMMON_NAMES: &str = include_str!("c_common_names.h");

/// A path from the top of the repository, and the text of its file, or `None` of one that is to go.
type File = (String, Option<String>);

/// A fault in words, or a line for each of several.
type Result<T> = std::result::Result<T, String>;

fn main() -> ExitCode {
    // The top of the repository that cargo runs this in.
    let top = Path::new(&env::var_os("CARGO_MANIFEST_DIR").unwrap_or_default()).join("../..");
    env::set_current_dir(top).expect("cargo runs this in a repository");
    let arguments: Vec<String> = env::args().skip(1).collect();
    let said = match &arguments[..] {
        [] => generated().and_then(|files| summary(&files, "are written", write)),
        [flag] if flag == "--check" => generated().and_then(|files| summary(&files, "are as generated", compare)),
        _ => Err("erase [--check]".into()),
    };
    match &said {
        Ok(words) => println!("{words}"),
        Err(faults) => eprintln!("{faults}"),
    }
    ExitCode::from(u8::from(said.is_err()))
}

/// What files are after a step for each, or a line for each failure.
fn summary(files: &[File], are: &str, step: fn(&File) -> io::Result<()>) -> Result<String> {
    let faults = files.iter().filter_map(|file| Some(format!("{}: {}", file.0, step(file).err()?)));
    let faults: Vec<String> = faults.collect();
    let count = files.iter().filter(|file| file.1.is_some()).count();
    if faults.is_empty() { Ok(format!("erase: {count} files {are}")) } else { Err(faults.join("\n")) }
}

/// Writes a file, in a folder that may be missing, or removes it.
fn write((path, text): &File) -> io::Result<()> {
    let Some(text) = text else { return fs::remove_file(path) };
    Path::new(path).parent().map_or(Ok(()), fs::create_dir_all)?;
    fs::write(path, text)
}

fn compare((path, text): &File) -> io::Result<()> {
    let is_same = fs::read_to_string(path).ok() == *text;
    if is_same { Ok(()) } else { Err(io::Error::other("not what erase generates")) }
}

/// A file that is to go is told as one that differs is, until it is gone.
#[test]
fn tells_of_files_that_are_to_go() {
    let files = ["Cargo.toml", "none"].map(|path| (path.into(), None));
    let said = "Cargo.toml: not what erase generates";
    assert_eq!(summary(&files, "are as generated", compare), Err(said.into()));
    assert_eq!(summary(&files[1..], "are as generated", compare), Ok("erase: 0 files are as generated".into()));
}

/// The files to write and to remove, or the first fault of a source, or those of all edits.
fn generated() -> Result<Vec<File>> {
    let there = table::CRATES.iter().flat_map(|table| listed(table.to));
    let mut files: BTreeMap<_, _> = there.map(|path| (path, None)).collect();
    for table in table::CRATES {
        files.extend(modules(table)?);
    }
    let mut calls = Vec::new();
    for path in listed(FOR_C) {
        let module = path[FOR_C.len() + 1..].trim_end_matches(".rt").replace('/', "::");
        calls.extend(calls::calls(&module, &read(&path)?));
    }
    let table = read(TABLE)?;
    let common = read(COMMON_TABLE)?;
    let page = read(PAGE)?.split_inclusive(LIST).take(1).collect::<String>() + &names::neighbours([&table, &common]);
    files.extend([
        file("rust/const-oid/src/db/names.rs", TABLE, &names::modules(&table)),
        file("rust/const-oid/src/db/common.rs", COMMON_TABLE, &names::common(&common)),
        file("crates/const_oid_c/include/const_oid_names.h", TABLE, &c_names::header(C_NAMES, &table)),
        file(
            "crates/const_oid_c/include/const_oid_common_names.h",
            COMMON_TABLE,
            &c_names::header(C_COMMON_NAMES, &common),
        ),
        file("rust/const-oid-c/src/exports.rs", FOR_C, &laid_out(&calls::exports(&calls))?),
        file("crates/const_oid_c/tests/calls.h", FOR_C, &calls::list(&calls)),
        (PAGE.into(), Some(page)),
    ]);
    Ok(files.into_iter().collect())
}

/// The files of the modules of a crate. A module of `fast` is `fast/NAME`, here and in the table.
fn modules(table: &Crate) -> Result<Vec<File>> {
    let mut files = Vec::new();
    let mut places = vec![0; table.edits.len()];
    let mut left = vec![String::from("lib")];
    while let Some(module) = left.pop() {
        let path = format!("{}/{module}.rt", table.from);
        let source = read(&path)?;
        let tokens = edit::edited(&erase::erase(&source), table, &module, &mut places);
        if let Some(command) = tokens.iter().find(|token| token::is_command(token)) {
            return Err(format!("{path}: `{command}` is no command"));
        }
        let (name, folder) = if module == "lib" { ("mod", String::new()) } else { (&*module, format!("{module}/")) };
        files.push(file(&format!("{}/{name}.rs", table.to), &path, &laid_out(&tokens.concat())?));
        left.extend(erase::modules(&tokens).iter().map(|name| format!("{folder}{name}")));
    }
    let edits = table.edits.iter().zip(places);
    let faults: Vec<String> = edits.filter_map(|(edit, places)| edit::fault_of(edit, places, table.from)).collect();
    if faults.is_empty() { Ok(files) } else { Err(faults.join("\n")) }
}

/// A generated file, in Rust or in C.
fn file(path: &str, from: &str, text: &str) -> File {
    let head = format!("Generated by rust/erase. Do not edit: edit {from}, and run `cargo run -p erase` in rust/.");
    let text = if path.ends_with(".h") { format!("/* {head} */\n{text}") } else { format!("// {head}\n\n{text}") };
    (path.into(), Some(text))
}

/// The layout of rustfmt.
fn laid_out(rust: &str) -> Result<String> {
    let run = || -> io::Result<Option<String>> {
        let mut rustfmt = Command::new("rustfmt");
        rustfmt.args(["--edition", "2024", "--config-path", "rust"]);
        let mut rustfmt = rustfmt.stdin(Stdio::piped()).stdout(Stdio::piped()).spawn()?;
        rustfmt.stdin.take().map_or(Ok(()), |mut input| input.write_all(rust.as_bytes()))?;
        let output = rustfmt.wait_with_output()?;
        Ok(String::from_utf8(output.stdout).ok().filter(|_| output.status.success()))
    };
    let missing = "`rustup component add rustfmt` installs it, or Debian's `rustfmt` or `rustfmt-web`";
    run().map_err(|error| format!("rustfmt: {error}. {missing}"))?.ok_or_else(|| format!("rustfmt fails on:\n{rust}"))
}

fn read(path: &str) -> Result<String> {
    fs::read_to_string(path).map_err(|error| format!("{path}: {error}"))
}

/// The files of a folder and of those in it.
fn listed(folder: &str) -> BTreeSet<String> {
    let entries = fs::read_dir(folder).into_iter().flatten().flatten();
    let paths = entries.map(|entry| format!("{folder}/{}", entry.file_name().to_string_lossy()));
    paths.flat_map(|path| if Path::new(&path).is_dir() { listed(&path) } else { [path].into() }).collect()
}
