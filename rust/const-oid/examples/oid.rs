//! Prints object identifiers, each by its text, octets, arcs and names, and lists names.
//!
//! `cargo run --features db --example oid 2.5.4.3 sha256`
use const_oid::db::{self, COMMON_SORTED, SORTED, SortedDatabase};
use const_oid::{ByArcs, ObjectIdentifier, ObjectIdentifierRef};
use std::env::args_os;
use std::error::Error;
use std::ffi::OsString;
use std::io::{self, BufRead, ErrorKind, IsTerminal, Write};
use std::process::ExitCode;

const HELP: &str = "\
Prints object identifiers: text, the same by name, contents octets, arcs, names.

Usage: oid [FLAG].. [INPUT]..

An input is text, such as 2.5.4.3, a name, such as sha256, a name and arcs, such
as IF-MIB::ifDescr.3, or contents octets, such as 2A03. The input - stands for
the lines of standard input, but blank ones, and is read if there is no other.

  --hex          Inputs are contents octets, also digits alone, such as 550403,
                 and what could be DER with tag and length.
  --search TEXT  Lists the names that contain TEXT, in any case, by their arcs.
  --version      Prints the version of the crate.
  -h, --help     Prints this.
  --             Ends the flags.

A name elsewhere differs by case, hyphens, underscores and blanks alone. The
status is 1 if an input is wrong or no name found, and 2 after a wrong flag.
";

const VERSION: &str = concat!("oid ", env!("CARGO_PKG_VERSION"), "\n");

/// The tables that `parse` asks, in its order.
const TABLES: [(&str, SortedDatabase<'static>); 2] = [("names", SORTED), ("common names", COMMON_SORTED)];

/// An identifier of the greatest capacity.
type Oid = ObjectIdentifier<255>;

/// What the arguments ask for.
#[derive(Default)]
struct Request {
    page: Option<&'static str>,
    searches: Vec<Vec<u8>>,
    is_hex: bool,
    inputs: Vec<Vec<u8>>,
}

/// Reads the arguments, or returns what is wrong with them.
fn request(mut arguments: impl Iterator<Item = Vec<u8>>) -> Result<Request, String> {
    let mut request = Request::default();
    while let Some(argument) = arguments.next() {
        match &argument[..] {
            b"-h" | b"--help" => request.page = Some(HELP),
            b"--version" => request.page = Some(VERSION),
            b"--search" => request.searches.push(arguments.next().ok_or("--search: no text follows")?),
            b"--hex" => request.is_hex = true,
            b"--" => request.inputs.extend(arguments.by_ref()),
            [b'-', _, ..] => return Err(format!("{}: no such flag", String::from_utf8_lossy(&argument))),
            _ => request.inputs.push(argument),
        }
    }
    if request.inputs.is_empty() && request.searches.is_empty() && request.page.is_none() {
        if io::stdin().is_terminal() {
            return Err("oid: no input".into());
        }
        request.inputs.push(b"-".into());
    }
    Ok(request)
}

/// The octets of digits in hexadecimal, or `None` of an odd number.
fn octets_of(digits: &str) -> Option<Vec<u8>> {
    let octet = |at| u8::from_str_radix(digits.get(at..at + 2)?, 16).ok();
    (0..digits.len()).step_by(2).map(octet).collect()
}

/// The identifier that an input denotes.
fn read(input: &[u8], is_hex: bool) -> Result<Oid, Box<dyn Error>> {
    let input = std::str::from_utf8(input).map_err(|_| "not UTF-8")?;
    let is_digits = input.bytes().all(|byte| byte.is_ascii_hexdigit());
    if !is_hex {
        let parsed = db::parse(input);
        if parsed.is_ok() || input.is_empty() || !is_digits {
            return Ok(parsed?);
        }
    }
    let octets = octets_of(input).filter(|_| is_digits).ok_or("not octets in hexadecimal")?;
    if !is_hex && matches!(ObjectIdentifierRef::read_element(&octets), Some((_, []))) {
        return Err("a whole element? Leave out tag and length, or give --hex".into());
    }
    if !is_hex && input.bytes().all(|byte| byte.is_ascii_digit()) {
        return Err("text, or octets? For octets, give --hex".into());
    }
    Ok(Oid::from_bytes_sized(&octets)?)
}

/// The name in an input, in lower case.
fn name_in(input: &str) -> String {
    let text = input.to_ascii_lowercase();
    let text = text.rsplit(':').next().unwrap_or_default();
    text.strip_prefix("oid.").or(text.strip_prefix('.')).unwrap_or(text).into()
}

/// Whether a name, perhaps with arcs after it, is one that no table has.
fn is_unknown(name: &str) -> bool {
    let mut dots = name.match_indices('.');
    name.starts_with(|first: char| first.is_ascii_alphabetic())
        && !dots.any(|(dot, _)| db::by_name(&name[..dot]).is_some())
}

/// The names of an identifier in a table. One that the table has twice is there once.
fn names_of(oid: &ObjectIdentifierRef, table: SortedDatabase<'static>) -> Vec<&'static str> {
    let entries = table.subtree(oid).iter().take_while(|entry| entry.0 == oid);
    let mut names: Vec<&str> = entries.map(|entry| entry.1).collect();
    names.dedup();
    names
}

/// The bytes of a name in lower case, without hyphens, underscores and blanks.
fn letters(name: &str) -> impl Iterator<Item = u8> {
    let letters = name.bytes().filter(|byte| !b"-_ ".contains(byte));
    letters.map(|byte| byte.to_ascii_lowercase())
}

/// What is printed of an identifier, for which a name was given.
fn describe(oid: &ObjectIdentifierRef, given: &str) -> String {
    let octets: Vec<String> = oid.as_bytes().iter().map(|octet| format!("{octet:02X}")).collect();
    let by_name = db::display(oid);
    let octets = octets.join(" ");
    let arcs: Vec<u32> = oid.arcs().collect();
    let mut lines = format!("{oid}\n  by name: {by_name}\n  octets: {octets}\n  arcs: {arcs:?}\n");
    for (kind, table) in TABLES {
        let names = names_of(oid, table);
        if !names.is_empty() {
            lines += &format!("  {kind}: {}\n", names.join(", "));
        }
    }
    for (other, name) in TABLES.iter().flat_map(|table| table.1.entries()) {
        if oid != *other && letters(name).eq(letters(given)) {
            lines += &format!("  elsewhere, {name}: {other}\n");
        }
    }
    lines
}

/// What is printed of an input, or its error.
fn answer(input: &[u8], is_hex: bool) -> Result<String, String> {
    let input = input.trim_ascii();
    let text = String::from_utf8_lossy(input);
    let name = name_in(&text);
    match read(input, is_hex) {
        Ok(oid) => Ok(describe(&oid, &name)),
        Err(error) if !is_hex && is_unknown(&name) => Err(format!("{text}: {error}. No identifier has this name")),
        Err(error) => Err(format!("{text}: {error}")),
    }
}

/// Lists the names that contain a text.
fn search(text: &[u8]) -> Result<String, String> {
    let text = String::from_utf8_lossy(text);
    let part = text.to_ascii_lowercase();
    let entries = TABLES.iter().flat_map(|table| table.1.entries());
    let mut found: Vec<_> = entries.filter(|entry| entry.1.to_ascii_lowercase().contains(&part)).collect();
    if found.is_empty() {
        return Err(format!("{text}: no name contains it"));
    }
    found.sort_by_key(|entry| ByArcs(entry.0));
    found.dedup();
    Ok(found.iter().map(|(oid, name)| format!("{oid} {name}\n")).collect())
}

/// Prints an error. It may have control characters of an input. If it cannot be printed, the exit status tells.
fn complain(error: &str) {
    let line = error.escape_debug().to_string().replace("\\'", "'");
    let _ = writeln!(io::stderr(), "{line}");
}

/// Prints an answer, or an error, and returns whether it is an answer.
fn print(answer: Result<String, String>) -> io::Result<bool> {
    match &answer {
        Ok(lines) => io::stdout().write_all(lines.as_bytes())?,
        Err(error) => complain(error),
    }
    Ok(answer.is_ok())
}

/// Prints what is asked for, and returns whether all was right.
fn run(request: Request) -> io::Result<bool> {
    if let Some(page) = request.page {
        return print(Ok(page.into()));
    }
    let mut is_right = true;
    for text in request.searches {
        is_right &= print(search(&text))?;
    }
    for input in request.inputs {
        if input != b"-" {
            is_right &= print(answer(&input, request.is_hex))?;
            continue;
        }
        for line in io::stdin().lock().split(b'\n') {
            let line = line?;
            if !line.trim_ascii().is_empty() {
                is_right &= print(answer(&line, request.is_hex))?;
            }
        }
    }
    Ok(is_right)
}

fn main() -> ExitCode {
    let request = match request(args_os().skip(1).map(OsString::into_encoded_bytes)) {
        Ok(request) => request,
        Err(error) => {
            complain(&format!("{error}. --help says more"));
            return 2.into();
        }
    };
    match run(request) {
        Ok(is_right) => u8::from(!is_right).into(),
        // The reader wants no more.
        Err(error) if error.kind() == ErrorKind::BrokenPipe => ExitCode::SUCCESS,
        Err(error) => {
            complain(&format!("oid: {error}"));
            ExitCode::FAILURE
        }
    }
}
