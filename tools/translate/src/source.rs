//! A source, its parts, and what is wrong in it.

use std::path::{Path, PathBuf};
use std::{fmt, fs};

/// The text of a file. Its path is the one that faults name.
#[derive(Clone, Debug)]
pub struct Source {
    pub path: PathBuf,
    pub text: String,
}

/// A part of a text, by the offsets of its first byte and of the byte after its last.
#[derive(Clone, Copy, Debug, PartialEq, Eq, PartialOrd, Ord, Hash)]
pub struct Span {
    pub start: usize,
    pub end: usize,
}

/// What stands in the place of a part.
pub type Edit = (Span, String);

/// Why a file is refused: a sentence about one of its lines, or about all of it.
#[derive(Clone, Debug, PartialEq, Eq)]
pub struct Fault {
    pub file: PathBuf,
    pub line: Option<usize>,
    pub reason: String,
}

/// What may be refused.
pub type Done<T> = Result<T, Fault>;

impl Source {
    pub fn new(path: &Path, text: String) -> Source {
        Source { path: path.into(), text }
    }

    /// Reads a file below `top` that must be UTF-8.
    pub fn read(top: &Path, path: &Path) -> Done<Source> {
        let text = fs::read_to_string(top.join(path));
        Ok(Source::new(path, text.map_err(|error| Fault::of_file(path, error))?))
    }

    /// Returns the text of a part.
    pub fn at(&self, span: Span) -> &str {
        &self.text[span.start..span.end]
    }

    /// Returns the number of the line in which a part begins, from 1.
    pub fn line(&self, span: Span) -> usize {
        1 + self.text[..span.start].matches('\n').count()
    }

    /// Says why a part is refused.
    pub fn fault(&self, span: Span, reason: impl Into<String>) -> Fault {
        Fault { file: self.path.clone(), line: Some(self.line(span)), reason: reason.into() }
    }
}

impl Fault {
    /// Says why a whole file is refused, or cannot be read or written.
    pub fn of_file(file: &Path, reason: impl fmt::Display) -> Fault {
        Fault { file: file.into(), line: None, reason: reason.to_string() }
    }
}

impl fmt::Display for Fault {
    fn fmt(&self, f: &mut fmt::Formatter<'_>) -> fmt::Result {
        let line = self.line.map_or(String::new(), |line| format!(":{line}"));
        write!(f, "{}{line}: {}", self.file.display(), self.reason)
    }
}
