//! The functions for C, from their heads in Rattle: their exports over pointers, and a list for the tests in C.

/// Types of arguments; what the list for C has for them, an array that is read or written, or a value; and of `@`, the
/// parameters over pointers, and what is made of them.
const KINDS: [[&str; 4]; 10] = [
    ["&[u8]", "IN(OCTETS", "@: *const u8, @_len: usize", "input(@, @_len)"],
    ["&[u32]", "IN(ARCS", "@: *const u32, @_len: usize", "input(@, @_len)"],
    ["&[Octets<'_>]", "IN(LIST", "@: *const Octets<'_>, @_len: usize", "input(@, @_len)"],
    ["&Octets<'_>", "VALUE(ITEM", "@: *const Octets<'_>", "&input(@, 1)[0]"],
    ["&mut [u8]", "OUT(OCTETS", "@: *mut u8, @_len: usize", "output(@, @_len)"],
    ["&mut [u32]", "OUT(ARCS", "@: *mut u32, @_len: usize", "output(@, @_len)"],
    ["&mut Range", "VALUE(RANGE_OUT", "@: *mut Range", "&mut output(@, 1)[0]"],
    ["&mut Octets<'_>", "VALUE(ITEM_OUT", "@: *mut Octets<'_>", "&mut output(@, 1)[0]"],
    ["usize", "VALUE(INDEX", "@: usize", "@"],
    ["u32", "VALUE(NUMBER", "@: u32", "@"],
];

/// Types of results, and those of C.
const RESULTS: [[&str; 2]; 3] = [["Status", "const_oid_status"], ["u32", "uint32_t"], ["i32", "int"]];

/// A function for C: its export, and its row of the list for C.
pub struct Call {
    export: String,
    row: String,
}

/// The functions of a module for C.
pub fn calls(module: &str, source: &str) -> Vec<Call> {
    source.split("pub extern \"C\" fn ").skip(1).filter_map(|text| call(module, text)).collect()
}

/// The function whose text begins with its name. A lifetime of the source is none of its pointers.
fn call(module: &str, text: &str) -> Option<Call> {
    let (head, rest) = text.split_once(") -> ")?;
    let head = head.replace("<'a>(", "(").replace("&'a ", "&").replace("<'a>", "<'_>");
    let (name, arguments) = head.split_once('(')?;
    let arguments: Vec<_> = arguments.split(',').filter_map(|text| text.trim().split_once(": ")).collect();
    let result = rest.split_whitespace().next()?;
    Some(Call { export: export(module, name, &arguments, result), row: list_row(name, &arguments, result) })
}

fn export(module: &str, name: &str, arguments: &[(&str, &str)], result: &str) -> String {
    let parts = arguments.iter().map(|(name, of)| row(&KINDS, of).map(|part| part.replace('@', name)));
    let (parameters, given): (Vec<_>, Vec<_>) = parts.map(|[_, _, over, made]| (over, made)).unzip();
    let head = format!("extern \"C\" fn {name}({}) -> {result}", parameters.join(", "));
    let call = format!("crate::erased::{module}::{name}({})", given.join(", "));
    if given.is_empty() {
        return format!("\n#[unsafe(no_mangle)]\npub {head} {{ {call} }}\n");
    }
    format!(
        "\n/// # Safety\n///\n/// The header says what a caller guarantees.\n#[unsafe(no_mangle)]\n\
         pub unsafe {head} {{\n// SAFETY: the caller guarantees it.\nunsafe {{ {call} }}\n}}\n"
    )
}

fn list_row(name: &str, arguments: &[(&str, &str)], result: &str) -> String {
    let prints = name.contains("_to_text") || name == "const_oid_error_text";
    let kinds = arguments.iter().zip(0..).map(|((argument, of), index)| match *argument {
        "der" => format!("IN(DER, {index})"),
        "text" if name.ends_with("_below") => format!("IN(BELOW, {index})"),
        "text" => format!("IN(TEXT, {index})"),
        "out" if prints => format!("OUT(TEXT, {index})"),
        _ => format!("{}, {index})", row(&KINDS, of)[1]),
    });
    let kinds = if arguments.is_empty() { "NOTHING".into() } else { kinds.collect::<Vec<_>>().join(", ") };
    format!("CALL({}, {name}, {kinds})\n", row(&RESULTS, result)[1])
}

/// The row of a type. One that a table lacks stands for all of it, and no compiler of C takes it.
fn row<'a, const LEN: usize>(table: &[[&'a str; LEN]], of: &'a str) -> [&'a str; LEN] {
    table.iter().find(|row| row[0] == of).copied().unwrap_or([of; LEN])
}

/// The exported functions of the library.
pub fn exports(calls: &[Call]) -> String {
    let exports: String = calls.iter().map(|call| &*call.export).collect();
    format!(
        "//! The exported functions, over pointers. The header says what a caller guarantees.\n\n\
         use crate::erased::lists::{{Octets, Range}};\nuse crate::erased::status::Status;\n\
         use crate::edge::{{input, output}};\n{exports}"
    )
}

/// The list for C.
pub fn list(calls: &[Call]) -> String {
    let rows: String = calls.iter().map(|call| &*call.row).collect();
    format!("/* The functions of const_oid.h: type of the result, name, and kinds of the arguments from 0. */\n{rows}")
}
