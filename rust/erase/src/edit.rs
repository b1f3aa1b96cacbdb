//! Applies edits: tokens that other tokens replace.

use crate::table::{Crate, Edit};
use crate::token::{is_blank, tokens};

/// The tokens with `new` in place of `old`, and the number of places. Neither space nor comments are compared.
pub fn replaced<'a>(source: &[&'a str], old: &str, new: &'a str) -> (Vec<&'a str>, usize) {
    let old: Vec<&str> = tokens(old).into_iter().filter(|token| !is_blank(token)).collect();
    let mut out = Vec::new();
    let mut places = 0;
    let mut at = 0;
    while at < source.len() {
        if let Some(len) = len_of(&source[at..], &old) {
            out.extend(tokens(new));
            let is_gap = new.is_empty() && source.get(at + len).is_some_and(|token| token.trim().is_empty());
            at += len + usize::from(is_gap);
            places += 1;
        } else {
            out.push(source[at]);
            at += 1;
        }
    }
    (out, places)
}

/// The length of the tokens that a source begins with, if they are these.
fn len_of(source: &[&str], old: &[&str]) -> Option<usize> {
    let solid = source.iter().enumerate().filter(|(at, token)| *at == 0 || !is_blank(token));
    let mut same = solid.zip(old).take_while(|((_, token), old)| token == old);
    same.nth(old.len().checked_sub(1)?).map(|((at, _), _)| at + 1)
}

/// The tokens of a module after the edits of the table. Each edit adds to its places.
pub fn edited<'a>(source: &[&'a str], table: &Crate, module: &str, places: &mut [usize]) -> Vec<&'a str> {
    let mut out = source.to_vec();
    for (edit, places) in table.edits.iter().zip(places) {
        if edit.module.is_empty() || edit.module.trim_end_matches('*') == module {
            let (tokens, more) = replaced(&out, edit.old, edit.new);
            out = tokens;
            *places += more;
        }
    }
    out
}

/// What is wrong with an edit that was made in so many places: it is made nowhere, or twice where `old` occurs once.
pub fn fault_of(edit: &Edit, places: usize, folder: &str) -> Option<String> {
    let is_once = !edit.module.is_empty() && !edit.module.ends_with('*');
    let is_right = places == 1 || places > 1 && !is_once;
    let Edit { module, old, why, .. } = edit;
    let fault = || format!("rust/erase/src/table.rs: {folder} has `{old}` of `{module}` ({why}) in {places} places");
    (!is_right).then(fault)
}
