//! The Rust of a module. Every token of its source is in it, in its order and on its line: what only proofs
//! read is a comment, heads of paths and the signature of `fmt` are replaced, `Drop` and `Model` are left out
//! of lists, and hints to inline and tests of conditions are put in.

use crate::modules::{CRATES, Module};
use crate::source::{Edit, Span};
use crate::tree::Node;

/// Returns the text of the file that a module becomes, with the tests of its conditions.
pub fn print(module: &Module, tests: Vec<Edit>) -> String {
    let mut printer = Printer { module, edits: tests };
    module.items.iter().for_each(|item| printer.node(item));
    let source = &module.source;
    let mut rust =
        format!("/* Made by .ci/translate from {}. Do not edit. */ ", source.path.display());
    let mut done = 0;
    printer.edits.sort_by_key(|(span, _)| span.start);
    for (span, text) in printer.edits {
        rust = rust + &source.text[done..span.start] + &text;
        done = span.end;
    }
    rust + &source.text[done..]
}

struct Printer<'a> {
    module: &'a Module,
    edits: Vec<Edit>,
}

impl Printer<'_> {
    // Puts a text in the place of a part. Ends of lines stay.
    fn replace(&mut self, span: Span, text: &str) {
        let lines = self.module.source.at(span).matches('\n').count();
        self.edits.push((span, "\n".repeat(lines) + text));
    }

    fn insert(&mut self, at: usize, text: &str) {
        self.replace(Span { start: at, end: at }, text);
    }

    // Makes a comment of a part: on each line if nothing else is on these lines, and otherwise between signs, which
    // it must not have.
    fn comment(&mut self, span: Span) {
        let source = &self.module.source;
        let text = source.at(span);
        let before = source.text[..span.start].rsplit('\n').next().unwrap_or_default();
        let after = source.text[span.end..].split('\n').next().unwrap_or_default();
        let comment = if before.trim().is_empty() && after.trim().is_empty() {
            commented(text, before.len())
        } else {
            format!("/* {} */", text.replace("*/", "* /").replace("/*", "/ *"))
        };
        self.edits.push((span, comment));
    }

    // Leaves `Drop` out, which Rust does not derive.
    fn derive(&mut self, derive: &Node) {
        let names = derive.parts.iter().map(|it| it.text.as_str());
        let kept: Vec<&str> = names.filter(|it| *it != "Drop").collect();
        match kept.is_empty() {
            true => self.comment(derive.span),
            false => self.replace(derive.span, &format!("#[derive({})]", kept.join(", "))),
        }
    }

    // Replaces the first name of a path by its path in the package.
    fn head(&mut self, first: &Node, second: &str) {
        let path = match (first.text.as_str(), second) {
            ("std", "simd") => "crate".into(),
            ("std", _) => "core".into(),
            ("crate", _) => format!("crate::proved::{}", self.module.crate_name),
            (name, _) if CRATES.contains(&name) => format!("crate::proved::{name}"),
            _ => return,
        };
        self.replace(first.span, &path);
    }

    fn function(&mut self, function: &Node) {
        if !function.has("block") {
            return;
        }
        // rustc compiles crates apart, and inlines only what has a hint across them.
        if !["inline", "always", "never"].iter().any(|hint| function.has_attribute(hint)) {
            self.insert(function.span.start, "#[inline] ");
        }
        // Without a hint, rustc compiles a method of the ten functions in this package, which is optimized where
        // programs ask for that, and not in a program's debug build.
        if function.name().starts_with("atoi_simd_parse") {
            let hints = function.get("notes").into_iter().flat_map(|notes| notes.all("always"));
            let hint = "#[cfg_attr(not(debug_assertions), inline(always))]";
            hints.for_each(|it| self.replace(it.span, hint));
        }
    }

    // Prints an item or something in it.
    fn node(&mut self, node: &Node) {
        match node.kind {
            "ghost" | "ghost_use" | "model" | "tactic" | "condition" | "promise" | "left_out" => {
                return self.comment(node.span);
            }
            "derive" => self.derive(node),
            "with_lanes" => self.insert(node.span.start, "#[cfg(feature = \"lanes\")] "),
            // In Rattle, a formatter has its writer as a type parameter.
            "writer" | "model_import" => self.replace(node.span, ""),
            "formatter" => self.replace(node.span, "fmt::Formatter<'_>"),
            "imported" => self.head(&node.parts[0], node.parts.get(1).map_or("", |it| &it.text)),
            "path" if node.parts.len() > 1 => self.head(&node.parts[0].parts[0], ""),
            "function" => self.function(node),
            _ => {}
        }
        node.parts.iter().for_each(|part| self.node(part));
    }
}

// Makes a comment of each line. All but the first are indented.
fn commented(text: &str, indent: usize) -> String {
    let comment = |(number, line): (usize, &str)| {
        let spaces = line.len() - line.trim_start_matches(' ').len();
        let (before, rest) = line.split_at(if number == 0 { 0 } else { spaces.min(indent) });
        if rest.trim().is_empty() { String::new() } else { format!("{before}// {rest}") }
    };
    text.split('\n').enumerate().map(comment).collect::<Vec<_>>().join("\n")
}
