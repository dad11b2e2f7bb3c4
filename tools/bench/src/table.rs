//! What a table compares: sides, which are loops by several readers, and tasks, which these do.

use crate::input::Input;
use std::collections::BTreeSet;
use std::rc::Rc;

// What a table reads, the kinds of its lists, the name of a way of reading, and the code of its loop.
type Row = [&'static str; 4];

/// The ways of reading in Rust, by tables. `@any` stands for each reader, `@package` for a package, and `@split` for
/// what reads the fields of a text that std splits.
pub const RUST: &[Row] = &[
    ["slice", "list real near-equal parse", "parse", "slices::<@any, $type, $flags>"],
    [
        "prefix in a loop over one text",
        "list real near-equal",
        "prefixes",
        "prefixes::<@any, $type, $flags>",
    ],
    ["prefix of a text", "prefix", "prefix", "starts::<@any, $type, $flags>"],
    ["number of a column", "list real near-equal column", "Fields", "@package::fields::<$type>"],
    ["number of a column", "", "Column", "@package::column::<$type>"],
    ["number of a column", "", "read into 1024", "@package::read::<$type>"],
    ["number of a column", "", "split", "split::<@split, $type>"],
    ["number of a job", "job", "prefixes", "$job::<@any>"],
    ["number of a job", "", "formats", "@package::$format"],
];

/// The ways of reading in C++. `@ours` stands for the C library, and `@standard` for `std::from_chars`.
pub const C: &[Row] = &[
    ["slice", "list real near-equal c", "torkettle::parse", "slices<@ours, $c>"],
    ["slice", "", "std::from_chars", "slices<@standard, $c>"],
    ["prefix of a text", "starts", "torkettle::from_chars", "starts<@ours, $c>"],
    ["prefix of a text", "", "std::from_chars", "starts<@standard, $c>"],
    ["number of one text", "list real near-equal c", "torkettle::from_chars", "column<@ours, $c>"],
    ["number of one text", "", "the column in C, by _read", "read<@ours, $c>"],
    ["number of one text", "", "the column in C, by _next", "next<@ours, $c>"],
    ["number of one text", "", "the range torkettle::fields", "fields<@ours, $c>"],
    ["number of one text", "", "std::from_chars", "column<@standard, $c>"],
];

/// Who wrote the code of a side.
#[derive(Clone, Copy, PartialEq, Eq)]
pub enum Author {
    /// This checkout.
    Ours,
    /// The commit that is compared with it.
    Theirs,
    /// Another library, or std.
    Other,
}

/// What reads numbers.
#[derive(Clone)]
pub struct Reader {
    pub author: Author,
    /// Whose it is.
    pub name: String,
    /// The name that `exports` have for it.
    pub code: &'static str,
    /// The path of a library with the interface of the original, or nothing.
    pub library: &'static str,
    /// The words in the code of loops that stand for it.
    pub words: &'static str,
    /// The number of the shared object that has its loops.
    pub object: usize,
}

/// Loops of one reader, which reads in one way.
pub struct Side {
    pub reader: Reader,
    /// How it reads. Two packages are compared in the same way.
    pub way: String,
    // The code of its loops, with words for what tasks say, as `$type`.
    code: String,
}

/// A list or the text of a job.
pub struct Task {
    /// The kind of list, by which tables choose.
    pub kind: &'static str,
    /// What `--only` looks at, and what the table calls it.
    pub line: String,
    /// The groups whose means include it.
    pub groups: Vec<String>,
    /// What the code of a loop has for each word.
    pub words: Vec<(&'static str, String)>,
    pub input: Input,
}

/// Lists or jobs that several sides read.
pub struct Table {
    /// What is read in the time or the instructions of a figure, as `slice`.
    pub item: &'static str,
    pub sides: Vec<Side>,
    pub tasks: Vec<Rc<Task>>,
}

/// The tables that have a task.
pub fn tables(rows: &[Row], readers: &[Reader], tasks: &[Rc<Task>]) -> Vec<Table> {
    let table = |rows: &[Row]| {
        let [item, kinds, ..] = rows[0];
        let has = |task: &&Rc<Task>| kinds.split(' ').any(|kind| kind == task.kind);
        let side = |[_, _, way, code]: &Row| {
            readers.iter().filter_map(|it| it.side(way, code)).collect::<Vec<_>>()
        };
        let sides = rows.iter().flat_map(side).collect();
        Table { item, sides, tasks: tasks.iter().filter(has).cloned().collect() }
    };
    let tables = rows.chunk_by(|one, next| one[0] == next[0]).map(table);
    tables.filter(|table| !table.tasks.is_empty()).collect()
}

impl Reader {
    /// A reader in the first shared object, with its code, library and words.
    pub fn new(author: Author, name: &str, texts: [&'static str; 3]) -> Reader {
        let ([code, library, words], name) = (texts, name.to_string());
        Reader { author, name, code, library, words, object: 0 }
    }

    // Its side that reads in a way, if it reads so.
    fn side(&self, way: &str, code: &str) -> Option<Side> {
        let word = self.words.split(' ').find(|word| code.contains(word))?;
        let way = format!("{way}{}", if self.code.ends_with("Lanes") { ", lanes" } else { "" });
        Some(Side { reader: self.clone(), way, code: code.replace(word, self.code) })
    }
}

impl Side {
    /// The code of its loop for a task. There is none if the task lacks a word.
    pub fn code(&self, task: &Task) -> Option<String> {
        let words = task.words.iter();
        let code = words.fold(self.code.clone(), |code, (name, word)| code.replace(name, word));
        (!code.contains('$')).then_some(code)
    }
}

impl Table {
    /// The sides that are compared, by their numbers: ours, each with those of a commit that read in the same way, or
    /// with those of other libraries. Without a commit, our first one is compared with our others, too.
    pub fn pairs(&self) -> Vec<(usize, usize)> {
        let sides = || self.sides.iter().enumerate();
        let has_theirs = sides().any(|(_, side)| side.reader.author == Author::Theirs);
        let mut pairs = Vec::new();
        for (ours, one) in sides().filter(|(_, side)| side.reader.author == Author::Ours) {
            let is_compared = |&(number, other): &(usize, &Side)| match other.reader.author {
                Author::Ours => !has_theirs && ours == 0 && number != 0,
                Author::Theirs => one.way == other.way,
                Author::Other => true,
            };
            pairs.extend(sides().filter(is_compared).map(|(theirs, _)| (ours, theirs)));
        }
        pairs
    }
}

/// The name under which a loop with this code is exported.
pub fn export(code: &str) -> String {
    let parts = code.split(|letter: char| !letter.is_ascii_alphanumeric());
    let parts: Vec<&str> = parts.filter(|part| !part.is_empty()).collect();
    format!("timed_{}", parts.join("_"))
}

/// A line for each loop of tables in an object, which is made of the name of its export and of its code.
pub fn exports(tables: &[Table], object: usize, line: impl Fn(&str, &str) -> String) -> String {
    let mut codes = BTreeSet::new();
    for table in tables {
        for side in table.sides.iter().filter(|side| side.reader.object == object) {
            codes.extend(table.tasks.iter().filter_map(|task| side.code(task)));
        }
    }
    codes.iter().map(|code| line(&export(code), code)).collect()
}

#[cfg(test)]
mod tests {
    use super::Author::{self, Other, Ours, Theirs};
    use super::{Reader, Side, Table};

    fn pairs(sides: &[(Author, &str)]) -> Vec<(usize, usize)> {
        let side = |&(author, way): &(Author, &str)| {
            let (reader, way) = (Reader::new(author, "", [""; 3]), way.to_string());
            Side { reader, way, code: String::new() }
        };
        Table { item: "", sides: sides.iter().map(side).collect(), tasks: Vec::new() }.pairs()
    }

    #[test]
    fn packages_are_compared_in_the_same_way_and_libraries_in_each() {
        let sides = [(Ours, "Fields"), (Ours, "read"), (Theirs, "Fields"), (Theirs, "read")];
        assert_eq!(pairs(&sides), [(0, 2), (1, 3)]);
        let sides = [(Ours, "Fields"), (Ours, "read"), (Other, "split"), (Other, "prefixes")];
        assert_eq!(pairs(&sides), [(0, 1), (0, 2), (0, 3), (1, 2), (1, 3)]);
    }
}
