//! What the program `oid` prints, its errors and its exit status. `cargo test` builds it, unless a target or a test is
//! named: then `cargo build --example oid` does.
#![cfg(feature = "db")]

use std::ffi::OsStr;
use std::fs::File;
use std::io::{Read, Write};
use std::process::{Command, Stdio};

const CN: &str = "2.5.4.3
  by name: cn
  octets: 55 04 03
  arcs: [2, 5, 4, 3]
  names: cn, commonName
  common names: id-at-commonName, Common Name, X520 Common Name, common_name, id_at_commonName
";
const UP_TIME: &str = "1.3.6.1.2.1.1.3
  by name: sysUpTime
  octets: 2B 06 01 02 01 01 03
  arcs: [1, 3, 6, 1, 2, 1, 1, 3]
  common names: sysUpTime
";
const C3: &str = "2.5.4.98
  by name: c3
  octets: 55 04 62
  arcs: [2, 5, 4, 98]
  common names: c3, countryCode3c
";
const DSA: &str = "2.5.6.13
  by name: dSA
  octets: 55 06 0D
  arcs: [2, 5, 6, 13]
  names: dSA
  elsewhere, DSA: 1.2.840.10040.4.1
";
const SIGNING: &str = "2.23.140.1.4.1
  by name: code-signing
  octets: 67 81 0C 01 04 01
  arcs: [2, 23, 140, 1, 4, 1]
  common names: code-signing
  elsewhere, codeSigning: 1.3.6.1.5.5.7.3.3
  elsewhere, Code Signing: 1.3.6.1.5.5.7.3.3
  elsewhere, code_signing: 1.3.6.1.5.5.7.3.3
";
const COUNTRIES: &str = "2.5.4.98 countryCode3c
2.5.4.99 countryCode3n
";
const EXTENSIONS: &str = "2.5.29
  by name: id-ce
  octets: 55 1D
  arcs: [2, 5, 29]
  names: id-ce
  common names: id_ce
";
const NO_NAME: &str = "1.9
  by name: 1.9
  octets: 31
  arcs: [1, 9]
";
const ELEMENT: &str = "0.6.2.42.3
  by name: 0.6.2.42.3
  octets: 06 02 2A 03
  arcs: [0, 6, 2, 42, 3]
";
const SHORT: &str = "0.6.1.42.79
  by name: 0.6.1.42.79
  octets: 06 01 2A 4F
  arcs: [0, 6, 1, 42, 79]
";

/// Arguments with spaces between them, what is printed, and the error of the last one, if it has one.
const ROWS: &[(&str, &str, &str)] = &[
    ("1.9", NO_NAME, ""),
    ("2.5.4.3", CN, ""),
    ("550403 --hex", CN, ""),
    ("551D", EXTENSIONS, ""),
    ("551d", EXTENSIONS, ""),
    ("--hex 06022A03", ELEMENT, ""),
    ("06012A4F", SHORT, ""),
    ("06022A03", "", "a whole element? Leave out tag and length, or give --hex"),
    ("0603550403", "", "a whole element? Leave out tag and length, or give --hex"),
    ("550403", "", "text, or octets? For octets, give --hex"),
    ("2.\x1B[31m5", "", "expected digit, got '\x1B'"),
    ("2A8001", "", "OID contains arc with invalid base 128 encoding"),
    ("2A8", "", "not octets in hexadecimal"),
    ("--hex 2.5.4.3", "", "not octets in hexadecimal"),
    ("--hex +2+A", "", "not octets in hexadecimal"),
    ("--hex sha256", "", "not octets in hexadecimal"),
    ("sha257", "", "expected digit, got 's'. No identifier has this name"),
    ("OID.sha257.1", "", "expected digit, got 's'. No identifier has this name"),
    ("IF-MIB::ifDescr.x", "", "expected digit, got 'x'"),
    ("OID.2.x", "", "expected digit, got 'x'"),
    ("SYSUPTIME", UP_TIME, ""),
    ("c3", C3, ""),
    ("DSA", DSA, ""),
    ("OID.dsa", DSA, ""),
    (".dsa", DSA, ""),
    (".nope", "", "expected digit, got 'n'. No identifier has this name"),
    ("code-signing", SIGNING, ""),
    ("CN", CN, ""),
    ("2.5.4.3 3.1", CN, "OID contains out-of-range arc: 3"),
    ("-- 2.5.4.3", CN, ""),
    ("2.5.4.3 --", CN, ""),
    ("2.5.4.3 -- - --hex", CN, "expected digit, got '-'"),
    ("-- 2.5.4.3 --", CN, "expected digit, got '-'"),
    ("--search countrycode3 --search nope", COUNTRIES, "no name contains it"),
];

/// The program, which lies beside the folder of this test.
fn oid(arguments: &[&str]) -> Command {
    let test = std::env::current_exe().unwrap();
    let mut command = Command::new(test.ancestors().nth(2).unwrap().join("examples/oid"));
    command.args(arguments).stdin(Stdio::piped()).stdout(Stdio::piped()).stderr(Stdio::piped());
    command
}

/// What a program prints, its errors and its exit status. Lines are its standard input, if that is piped.
fn run(command: &mut Command, lines: &[u8]) -> (String, String, i32) {
    let mut child = command.spawn().expect("cargo test builds the program");
    if let Some(mut stdin) = child.stdin.take() {
        stdin.write_all(lines).unwrap();
    }
    let output = child.wait_with_output().unwrap();
    let [printed, errors] = [output.stdout, output.stderr].map(|text| String::from_utf8(text).unwrap());
    (printed, errors, output.status.code().unwrap())
}

fn assert_runs(command: &mut Command, lines: &[u8], printed: &str, errors: &str, status: i32) {
    assert_eq!(run(command, lines), (printed.into(), errors.into(), status), "{command:?}");
}

/// An error comes after its argument, with escapes.
fn error_line(argument: &str, error: &str) -> String {
    format!("{argument}: {error}").escape_debug().to_string().replace("\\'", "'")
}

/// Each row of what people type is read, and displayed, or has its error, with escapes.
#[test]
fn reads_what_people_type() {
    for line in include_str!("../../../crates/oid_rows/typed_names.tsv").lines() {
        let [input, wanted, shown] = Vec::from_iter(line.split('\t')).try_into().unwrap();
        let (printed, errors, status) = run(&mut oid(&["--", input]), b"");
        let is_read = printed.starts_with(&format!("{wanted}\n  by name: {shown}\n")) && errors.is_empty();
        let is_wrong = errors.starts_with(&error_line(input.trim_ascii(), wanted)) && printed.is_empty();
        assert!(if status == 0 { is_read } else { is_wrong }, "{input}");
    }
}

#[test]
fn prints_each_row() {
    for (arguments, printed, error) in ROWS {
        let arguments = Vec::from_iter(arguments.split(' '));
        let (errors, status) = match *error {
            "" => (String::new(), 0),
            _ => (error_line(arguments[arguments.len() - 1], error) + "\n", 1),
        };
        assert_runs(&mut oid(&arguments), b"", printed, &errors, status);
    }
    assert_eq!([255, 256].map(|len| run(&mut oid(&[&"2B".repeat(len)]), b"").2), [0, 1]);
}

/// A line may end as in Windows, or not at all, and may be blank. It may not be a flag.
#[test]
fn reads_lines() {
    let lines = b"\n \r\n2.5.4.3\r\n--hex\n\xFF\n-\n 1.9";
    let errors = "--hex: expected digit, got '-'\n\u{FFFD}: not UTF-8\n-: expected digit, got '-'\n";
    let printed = CN.to_owned() + NO_NAME;
    for arguments in [&[][..], &["-"], &["--", "-", "-"]] {
        assert_runs(&mut oid(arguments), lines, &printed, errors, 1);
    }
    assert_runs(&mut oid(&["-", "--hex"]), b"550403 \r\n31", &printed, "", 0);
}

/// After a wrong flag nothing is printed but its error.
#[test]
fn a_wrong_flag_is_an_error() {
    for flag in ["--nope", "-x", "--HEX", "--search=cn", "--search"] {
        let error = if flag == "--search" { "no text follows" } else { "no such flag" };
        let errors = format!("{flag}: {error}. --help says more\n");
        assert_runs(&mut oid(&["2.5.4.3", "nope", "--help", flag]), b"", "", &errors, 2);
    }
}

/// The help fits a terminal of 80 columns and 24 lines.
#[test]
fn prints_help_and_its_version() {
    let (help, ..) = run(&mut oid(&["--help"]), b"");
    assert!((10..24).contains(&help.lines().count()) && help.lines().all(|line| line.len() <= 80));
    assert_runs(&mut oid(&["2.5.4.3", "-h"]), b"", &help, "", 0);
    assert_runs(&mut oid(&["--version"]), b"", concat!("oid ", env!("CARGO_PKG_VERSION"), "\n"), "", 0);
}

/// A search finds the rows with a text in their names, each once, in the order of arcs.
#[test]
fn searches_names() {
    let tables = [include_str!("../../names.tsv"), include_str!("../../common_names.tsv")].concat();
    let mut rows: Vec<_> = tables.lines().map(|line| Vec::from_iter(line.split('\t'))).collect();
    rows.sort_by_key(|row| Vec::from_iter(row[2].split('.').map(|arc| arc.parse::<u32>().unwrap())));
    for text in ["sha", "ECDSA", "ANSI X9", "-", "--hex", "sha 256", ""] {
        let found = rows.iter().filter(|row| row[3].to_lowercase().contains(&text.to_lowercase()));
        let mut lines: Vec<_> = found.map(|row| format!("{} {}\n", row[2], row[3])).collect();
        lines.dedup();
        let errors = if lines.is_empty() { format!("{text}: no name contains it\n") } else { String::new() };
        assert_runs(&mut oid(&["--search", text]), b"", &lines.concat(), &errors, i32::from(lines.is_empty()));
    }
}

/// Where a reader wants no more, the program ends without an error.
#[test]
fn a_closed_output_ends_it() {
    let mut child = oid(&["--search", ""]).spawn().unwrap();
    child.stdout.take().unwrap().read_exact(&mut [0; 9]).unwrap();
    let output = child.wait_with_output().unwrap();
    assert!(output.status.success() && output.stderr.is_empty());
}

#[cfg(unix)]
#[test]
fn an_argument_may_be_any_octets() {
    let [input, flag] = [&b"\xFF.2"[..], b"-\xFF"].map(std::os::unix::ffi::OsStrExt::from_bytes);
    assert_runs(oid(&["1.9"]).arg::<&OsStr>(input), b"", NO_NAME, "\u{FFFD}.2: not UTF-8\n", 1);
    assert_runs(oid(&["1.9"]).arg::<&OsStr>(flag), b"", "", "-\u{FFFD}: no such flag. --help says more\n", 2);
}

/// Errors of files are printed. What is right is printed even if errors cannot be.
#[cfg(target_os = "linux")]
#[test]
fn files_may_fail() {
    let full = || File::create("/dev/full").unwrap();
    assert_runs(oid(&["1.9"]).stdout(full()), b"", "", "oid: No space left on device (os error 28)\n", 1);
    assert_runs(oid(&["nope", "1.9"]).stderr(full()), b"", NO_NAME, "", 1);
    assert_runs(oid(&[]).stdin(File::open("/").unwrap()), b"", "", "oid: Is a directory (os error 21)\n", 1);
    let terminal = File::options().read(true).write(true).open("/dev/ptmx").unwrap();
    assert_runs(oid(&[]).stdin(terminal), b"", "", "oid: no input. --help says more\n", 2);
}
