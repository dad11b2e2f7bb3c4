//! Makes the Rust below `rust/src/proved` a second time, without `tools/translate`: line by line, as the layout of the
//! sources tells what a line is, and not by their grammar. Both have to be the same, to the letter. So a change of that
//! Rust by hand is noticed, too.

use std::fs;
use std::path::{Path, PathBuf};

const TOP: &str = env!("CARGO_MANIFEST_DIR");

// The crates of the package.
const CRATES: [&str; 6] =
    ["atoi_core", "atoi_fast", "atoi_lanes", "atoi_simd", "atoi_column", "atoi_formats"];

// The conditions of exported functions, and how their bodies begin in Rust.
const TESTS: [(&str, &str); 3] = [
    (
        "is_separator separator ≡ true",
        "assert!(crate::column::is_separator(separator), \"a sign or a digit separates fields\");",
    ),
    (
        "IsFalse (is_digit decimal_table byte)",
        "assert!(!byte.is_ascii_digit(), \"a digit is to follow the number\");",
    ),
    (
        "(index + length self.rest < 2 ^ 64) × (place + length self.rest < 2 ^ 64)",
        "assert!(self.rest.len() <= usize::MAX - index, \"the fields have too many indices\"); \
         assert!(self.rest.len() <= usize::MAX - place, \"the fields end above usize::MAX\");",
    ),
];

// How what only proofs read begins, apart from implementations of `Model`.
const FOR_PROOFS: [&str; 6] =
    ["ghost ", "requires ", "ensures ", "#[tactic", "#![tactic", "#[derive(Drop)]"];

// What Rust has in place of these parts of lines, after the heads of paths to our crates.
const REPLACED: [(&str, &str); 6] = [
    ("std::simd", "crate::simd"),
    ("std::", "core::"),
    ("{Model, ", "{ "),
    (", Drop)]", ")]"),
    ("fmt<W: fmt::Write>", "fmt"),
    ("Formatter<W>", "Formatter<'_>"),
];

// The modules of `atoi_lanes` that are left out, with what its root says of them.
const LEFT_OUT: [&str; 4] = ["kernels", "lanes", "wide_lanes", "window_32"];

// What the root of `atoi_fast` has only with the feature `lanes`.
const WITH_LANES: [&str; 2] = ["mod vectors;", "pub use crate::vectors::Vectors;"];

#[test]
fn a_second_reading_makes_the_same() {
    let mut made = 0;
    for name in CRATES {
        let folder = Path::new(TOP).join("crates").join(name).join("src");
        for file in files(&folder, ".rt") {
            let module = file.strip_prefix(&folder).unwrap().to_str().unwrap();
            if name == "atoi_lanes" && LEFT_OUT.contains(&module.split(['/', '.']).next().unwrap())
            {
                continue;
            }
            // The package has other engines.
            let twin = format!("rust/default_engine/{name}.rs");
            let own = format!("crates/{name}/src/{module}");
            let from = if module == "default_engine.rt" { twin } else { own };
            let source = fs::read_to_string(Path::new(TOP).join(&from)).unwrap();
            let rust = Path::new(TOP).join("rust/src/proved").join(name);
            let rust = rust.join(module.replace("lib.rt", "mod.rs").replace(".rt", ".rs"));
            let head = format!("/* Made by .ci/translate from {from}. Do not edit. */ ");
            let expected = head + &rust_of(name, &source);
            let found = fs::read_to_string(&rust).unwrap();
            for (number, (found, expected)) in found.lines().zip(expected.lines()).enumerate() {
                assert_eq!(found, expected, "{}:{}", rust.display(), number + 1);
            }
            assert_eq!(found, expected, "the end of {}", rust.display());
            made += 1;
        }
    }
    assert!(made > 50, "{made} files");
    assert_eq!(made, files(&Path::new(TOP).join("rust/src/proved"), ".rs").len(), "files");
}

// One line, or the lines of something that only proofs read.
struct Part<'a> {
    text: &'a str,
    is_for_proofs: bool,
}

fn rust_of(name: &str, source: &str) -> String {
    let parts = parts(name, source);
    let (mut rust, mut test, mut is_public, mut is_hinted) = (String::new(), "", false, false);
    for (at, part) in parts.iter().enumerate() {
        let text = part.text.trim_start();
        if part.is_for_proofs {
            rust += &comment(part.text);
            if is_public && text.starts_with("requires ") {
                test = test_of(text);
            }
            continue;
        }
        let (mut line, indent) = (kept(name, part.text), part.text.len() - text.len());
        let next_function = || parts[at..].iter().find(|part| part.text.contains("fn "));
        is_hinted |= text.starts_with("#[inline");
        if text == "#[inline(always)]\n" && next_function().is_some_and(is_compiled_once) {
            line.replace_range(indent.., "#[cfg_attr(not(debug_assertions), inline(always))]\n");
        }
        if ["fn ", "pub fn ", "pub(crate) fn "].iter().any(|head| text.starts_with(head)) {
            if !is_hinted && has_body(&parts[at..]) {
                line.insert_str(indent, "#[inline] ");
            }
            (is_public, is_hinted) = (text.starts_with("pub fn "), false);
        }
        if text.ends_with("{\n") {
            line.insert_str(line.len() - 1, std::mem::take(&mut test));
        }
        rust += &line;
    }
    rust
}

// What only proofs read ends where its brackets are closed.
fn parts<'a>(name: &str, source: &'a str) -> Vec<Part<'a>> {
    let (mut parts, mut start, mut depth) = (Vec::new(), 0, 0);
    let mut end = 0;
    for line in source.split_inclusive('\n') {
        end += line.len();
        let text = line.trim_start();
        let begins = FOR_PROOFS.iter().any(|head| text.starts_with(head))
            || text.starts_with("impl") && text.contains(" Model for ")
            || name == "atoi_lanes" && is_of_left_out(text);
        let is_for_proofs = depth > 0 || begins;
        if is_for_proofs {
            depth += line.matches(['(', '[', '{']).count();
            depth -= line.matches([')', ']', '}']).count();
        }
        if depth == 0 {
            parts.push(Part { text: &source[start..end], is_for_proofs });
            start = end;
        }
    }
    assert_eq!(depth, 0, "a bracket is not closed");
    parts
}

fn is_of_left_out(item: &str) -> bool {
    LEFT_OUT.iter().any(|module| {
        item.ends_with(&format!("mod {module};\n"))
            || item.starts_with(&format!("pub use crate::{module}::"))
    })
}

// A comment on each line or, before the `;` of a function without a body, between signs.
fn comment(part: &str) -> String {
    let indent = part.len() - part.trim_start().len();
    let (before, text) = part.split_at(indent);
    let is_clause = text.starts_with("requires ") || text.starts_with("ensures ");
    if let (true, Some(clause)) = (is_clause, text.strip_suffix(";\n")) {
        return format!("{before}/* {clause} */;\n");
    }
    let commented = |line: &str| match line.trim_start().len() {
        0 => line.to_string(),
        length => {
            let (before, rest) = line.split_at(indent.min(line.len() - length));
            format!("{before}// {rest}")
        }
    };
    part.split_inclusive('\n').map(commented).collect()
}

fn test_of(condition: &str) -> &'static str {
    let words: Vec<&str> = condition.split_whitespace().collect();
    let text = words.join(" ");
    let is_clause = |clause: &str| text.ends_with(&format!("{{ {clause} }}"));
    TESTS.iter().find(|(clause, _)| is_clause(clause)).map_or("", |(_, test)| test)
}

// A line of what remains. Comments do not change.
fn kept(name: &str, line: &str) -> String {
    if line.trim_start().starts_with("//") {
        return line.to_string();
    }
    let feature = if name == "atoi_fast" && WITH_LANES.contains(&line.trim_end()) {
        "#[cfg(feature = \"lanes\")] "
    } else {
        ""
    };
    let mut line = line.replace("crate::", &format!("{name}::"));
    for name in CRATES {
        for end in ["::", " as "] {
            line = line.replace(&format!("{name}{end}"), &format!("crate::proved::{name}{end}"));
        }
    }
    for (from, to) in REPLACED {
        line = line.replace(from, to);
    }
    feature.to_string() + &line
}

// A debug build inlines no method of the ten functions.
fn is_compiled_once(function: &Part<'_>) -> bool {
    function.text.contains("fn atoi_simd_parse")
}

// Whether the function that begins here has more than a signature.
fn has_body(parts: &[Part<'_>]) -> bool {
    for part in parts {
        let text = part.text.trim_end();
        if text.ends_with(';') || !part.is_for_proofs && text.ends_with(['{', '}']) {
            return !text.ends_with(';');
        }
    }
    false
}

// The files of a folder, and of the folders in it, that end so and are not hidden.
fn files(folder: &Path, end: &str) -> Vec<PathBuf> {
    let mut found = Vec::new();
    for entry in fs::read_dir(folder).unwrap().map(Result::unwrap) {
        let (name, path) = (entry.file_name().into_string().unwrap(), entry.path());
        if path.is_dir() && !name.starts_with('.') {
            found.extend(files(&path, end));
        } else if name.ends_with(end) && !name.starts_with('.') {
            found.push(path);
        }
    }
    found
}
