//! Where tokens begin and end. What is a token only in clauses, or in none of our sources, is no token that a rule takes.

use crate::source::{Done, Source, Span};

// The longer symbols first, of which a shorter one is the start.
const SYMBOLS: &str = "..= -> => :: .. && || == != <= >= += << >> /*";

// Comments, escapes and quotations of Rattle, which could hide a brace or an end.
const HIDING: &[&str] = &["--", "{-", "-}", "//", "/*", "*/", "\\", "«", "'\"", "'{", "'}"];

// These marks make a text look like another.
const MARKS: &str = "\u{200E}\u{200F}\u{202A}\u{202B}\u{202C}\u{202D}\u{202E}\u{2066}\u{2067}\u{2068}\u{2069}\u{FEFF}";

/// Refuses control characters and invisible marks, also in comments and texts.
pub fn check_characters(source: &Source) -> Done<()> {
    let is_unknown = |it: char| it != '\n' && it.is_control() || MARKS.contains(it);
    let found = source.text.char_indices().find(|(_, character)| is_unknown(*character));
    let Some((start, character)) = found else { return Ok(()) };
    let reason = format!("the character U+{:04X}", u32::from(character));
    Err(source.fault(Span { start, end: start }, reason))
}

/// Returns what follows spaces, ends of lines and comments.
pub fn skip_space(mut rest: &str) -> &str {
    loop {
        rest = rest.trim_start_matches([' ', '\n']);
        // Four slashes document nothing.
        let is_doc = rest.starts_with("///") && !rest.starts_with("////");
        if !rest.starts_with("//") || is_doc {
            return rest;
        }
        rest = &rest[line_length(rest)..];
    }
}

/// Returns the token at the start of `rest`, as long as it can be. Comments between `/*` and `*/` are not known.
pub fn token(rest: &str) -> &str {
    let name = name_length(rest);
    let length = match rest.as_bytes() {
        [b'/', b'/', ..] => line_length(rest),
        [b'"', ..] => quoted_length(rest, 0),
        [b'b', b'"' | b'\'', ..] => quoted_length(rest, 1),
        [b'\'', ..] => 1 + name_length(&rest[1..]),
        _ if name > 0 => name,
        _ => SYMBOLS.split(' ').find(|it| rest.starts_with(it)).map_or(0, str::len),
    };
    let first = rest.chars().next().map_or(0, char::len_utf8);
    &rest[..length.max(first)]
}

// Returns the length of a text or byte whose first quote is at `from`, if it ends on the same line, or 0. No rule takes
// one with a quote behind `\`, which is not known here.
fn quoted_length(rest: &str, from: usize) -> usize {
    let line = &rest[..line_length(rest)];
    let length = line[from + 1..].find(&line[from..=from]);
    length.map_or(0, |length| from + length + 2)
}

/// Returns the length of the clause at the start of `rest`. It is not Rust: its names may have any characters. What
/// could hide a brace is refused, so that its braces are those that Rattle counts.
pub fn clause_length(rest: &str) -> Result<usize, (usize, &str)> {
    let (mut depth, mut in_text) = (0, false);
    for (offset, character) in rest.char_indices() {
        if let Some(sign) = HIDING.iter().find(|sign| rest[offset..].starts_with(**sign)) {
            return Err((offset, sign));
        }
        match character {
            '"' => in_text = !in_text,
            '\n' if in_text => return Err((offset, "\"")),
            '{' if !in_text => depth += 1,
            '}' if !in_text => depth -= 1,
            _ => {}
        }
        if depth == 0 {
            return Ok(offset + character.len_utf8());
        }
    }
    Err((rest.len(), ""))
}

/// Returns the length of a name in the list of a `ghost use`, which may have any characters, or 0.
pub fn ghost_name_length(rest: &str) -> usize {
    let name = rest.split([' ', '\n', ',', ';', '{', '}', '"']).next().unwrap_or_default();
    let hides = name.starts_with('-') || HIDING.iter().any(|sign| name.contains(sign));
    if hides { 0 } else { name.len() }
}

fn line_length(rest: &str) -> usize {
    rest.find('\n').unwrap_or(rest.len())
}

// Returns the length of the name or number at the start of `rest`, or 0.
fn name_length(rest: &str) -> usize {
    let is_part = |character: char| character.is_ascii_alphanumeric() || character == '_';
    rest.find(|character| !is_part(character)).unwrap_or(rest.len())
}

/// Returns the value of a whole number. Suffixes are not known.
pub fn number(text: &str) -> Option<u128> {
    let digits = text.replace('_', "");
    match digits.strip_prefix("0x") {
        Some(digits) => u128::from_str_radix(digits, 16).ok(),
        None => digits.parse().ok(),
    }
}

/// Returns the bytes of a text or a byte between quotes, if its escapes are known.
pub fn bytes(quoted: &str) -> Option<Vec<u8>> {
    let inner = quoted.trim_start_matches('b').get(1..)?;
    let inner = &inner[..inner.len().checked_sub(1)?];
    let text = inner.replace("\\n", "\n").replace("\\r", "\r");
    (!text.contains('\\')).then(|| text.into_bytes())
}
