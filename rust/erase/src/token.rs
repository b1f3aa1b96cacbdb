//! The tokens of a source, whose texts together are the source.
//!
//! Rattle has the tokens of Rust. Ghost terms are another language. But their brackets nest, and their
//! strings are those of Rust, so they can be skipped.

/// The tokens of a source. A lifetime is a mark and a word.
pub fn tokens(source: &str) -> Vec<&str> {
    let mut out = Vec::new();
    let mut rest = source;
    while !rest.is_empty() {
        let (token, after) = rest.split_at(next_len(rest));
        out.push(token);
        rest = after;
    }
    out
}

/// The length of the first token of a source.
fn next_len(source: &str) -> usize {
    let run = |of: fn(char) -> bool| source.find(|c| !of(c)).unwrap_or(source.len());
    let is_character = || source.starts_with("'\\") || source.chars().nth(2) == Some('\'');
    match source.chars().next() {
        Some('/') if source.starts_with("//") => run(|c| c != '\n'),
        Some('"') => quoted_len(source),
        Some('\'') if is_character() => quoted_len(source),
        Some(first) if first.is_whitespace() => run(char::is_whitespace),
        Some(first) if is_word(first) => run(is_word),
        first => first.map_or(0, char::len_utf8),
    }
}

/// The length of a string or a character, up to another mark such as its first.
fn quoted_len(source: &str) -> usize {
    let mut escaped = false;
    let mut ends = |c: char| {
        let ends = !escaped && source.starts_with(c);
        escaped = !escaped && c == '\\';
        ends
    };
    source.char_indices().skip(1).find(|(_, c)| ends(*c)).map_or(source.len(), |(index, _)| index + 1)
}

fn is_word(c: char) -> bool {
    c.is_alphanumeric() || c == '_'
}

/// Whether a token is a command to the eraser.
pub fn is_command(token: &str) -> bool {
    token.starts_with("//") && token.to_lowercase().contains("erase:")
}

/// Whether a token is space or a comment, and no command.
pub fn is_blank(token: &str) -> bool {
    token.trim().is_empty() || token.starts_with("//") && !is_command(token)
}

/// The index after what begins at an index: after the bracket that closes the one there, or the next token.
pub fn after(tokens: &[&str], at: usize) -> usize {
    let mut depth = 0;
    let is_last = |token: &&str| {
        depth += i32::from(["(", "[", "{"].contains(token)) - i32::from([")", "]", "}"].contains(token));
        depth == 0
    };
    tokens[at..].iter().position(is_last).map_or(tokens.len(), |index| at + index + 1)
}
