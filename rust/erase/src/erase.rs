//! Removes what only the checker reads, and turns the rest into Rust.
//!
//! Each rule is for one kind of syntax. What no rule knows stays, and rustc decides on it.

use crate::edit::replaced;
use crate::token::{after, is_blank, tokens};

/// Commands to the eraser: the function after one has this qualifier in Rust. A constant calls it there, and in Rattle
/// it calls a function of `std` that is not `const`. Or the function is a rare path for C, which so returns in
/// registers, as exports do: the usual one needs no memory for a `Status`.
const QUALIFIED: [(&str, &str); 2] = [("// erase: const", "const"), ("// erase: extern \"C\"", "extern \"C\"")];

/// A command to the eraser: Rust lacks the `mod` or `use` after it.
const OMIT: &str = "// erase: omit";

/// What Rust writes in another way, wherever it is.
const SYNTAX: [(&str, &str); 8] = [
    // The checker alone reads these.
    ("use std::marker::Model;", ""),
    ("#[derive(Drop)]", ""),
    ("where I::IntoIter: Drop,", ""),
    // A caller by hand exports the functions that Rattle exports.
    ("#[unsafe(no_mangle)]", ""),
    ("extern \"C\"", ""),
    // Rust's formatter has no type of its output.
    ("<W: fmt::Write>(&self, f: &mut fmt::Formatter<W>)", "(&self, f: &mut fmt::Formatter<'_>)"),
    ("std::", "core::"),
    ("crate::", "crate::erased::"),
];

/// The tokens of Rust.
pub fn erase(source: &str) -> Vec<&str> {
    let mut out = without_ghosts(&tokens(source));
    for (rattle, rust) in SYNTAX {
        out = replaced(&out, rattle, rust).0;
    }
    out
}

/// Without ghosts, contracts, tactics and impls of `Model`, with `#[must_use]` and with what the commands say.
fn without_ghosts<'a>(tokens: &[&'a str]) -> Vec<&'a str> {
    let mut out = Vec::new();
    let mut at = 0;
    let mut qualifier = None;
    while at < tokens.len() {
        let token = tokens[at];
        let rest = &tokens[at..];
        let left_out = match token {
            "ghost" | OMIT => Some(member_len(rest)),
            "requires" | "ensures" => Some(item_len(rest)),
            "impl" if head(rest).contains("Model") => Some(item_len(rest)),
            // One of a function, with the end of its line.
            "#" if head(rest).starts_with("#[tactic") => Some(item_len(rest) + 1),
            "#" if head(rest).starts_with("#![tactic") => Some(item_len(rest)),
            _ => None,
        };
        if let Some(len) = left_out {
            let is_gap = |last: &&str| is_blank(last) && !last.starts_with("//!");
            while token != "#" && out.last().is_some_and(is_gap) {
                out.pop();
            }
            at += len;
            continue;
        }
        let command = QUALIFIED.iter().find(|row| row.0 == token);
        match token {
            "pub" if is_to_be_used(rest) => out.extend(["#[must_use]", "\n", token]),
            "fn" if qualifier.is_some() => out.extend([qualifier.take().unwrap_or_default(), " ", token]),
            _ if command.is_some() => at += 1,
            _ => out.push(token),
        }
        qualifier = command.map(|row| row.1).or(qualifier);
        at += 1;
    }
    out
}

/// The text up to the body of an item, or up to its clauses.
fn head(tokens: &[&str]) -> String {
    let is_in_head = |token: &&&str| !["{", ";", "requires", "ensures"].contains(*token);
    tokens.iter().take_while(is_in_head).copied().collect()
}

/// The length of an item up to its first braces, or of an attribute.
fn item_len(tokens: &[&str]) -> usize {
    let open = tokens.iter().position(|token| *token == "{" || *token == "[");
    open.map_or(tokens.len(), |open| after(tokens, open))
}

/// The length of a member or a ghost, up to `;` or `,`, or to the bracket that closes what it is in.
fn member_len(tokens: &[&str]) -> usize {
    let mut at = 0;
    while at < tokens.len() && tokens[at] != "}" {
        if tokens[at] == ";" || tokens[at] == "," {
            return at + 1;
        }
        at = after(tokens, at);
    }
    at
}

/// Whether tokens begin with a public function with a result that no lint asks for otherwise, as it does for `Result`.
fn is_to_be_used(tokens: &[&str]) -> bool {
    let head = head(tokens);
    let is_function = head.starts_with("pub fn") || head.starts_with("pub const");
    is_function && head.contains("-> ") && !head.contains("-> Result")
}

/// The modules that a source declares.
pub fn modules(tokens: &[&str]) -> Vec<String> {
    let solid: Vec<&str> = tokens.iter().filter(|token| !is_blank(token)).copied().collect();
    let declared = solid.windows(3).filter(|item| item[0] == "mod" && item[2] == ";");
    declared.map(|item| item[1].to_string()).collect()
}
