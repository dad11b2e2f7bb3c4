//! The trees of sources: nodes that the rules of the grammar make. Lifetimes are not in them, as nothing depends on one
//! that Rust does not check.

use crate::source::{Source, Span};

/// What a rule has read.
#[derive(Clone)]
pub struct Node {
    /// The name of the rule, and the part of that name before the point.
    pub rule: &'static str,
    pub kind: &'static str,
    /// The text of a node without parts.
    pub text: String,
    pub span: Span,
    pub parts: Vec<Node>,
}

impl Node {
    pub fn new(source: &Source, rule: &'static str, span: Span, parts: Vec<Node>) -> Node {
        let kind = rule.split('.').next().unwrap_or(rule);
        let text = if parts.is_empty() { source.at(span).into() } else { String::new() };
        Node { rule, kind, text, span, parts }
    }

    /// Puts nodes before its parts. What stands before an item does not count to its part of the source.
    pub fn begun_with(mut self, first: Vec<Node>) -> Node {
        let begins = first.iter().find(|it| !["notes", "notices"].contains(&it.kind));
        self.span.start = begins.map_or(self.span.start, |it| it.span.start);
        self.parts.splice(0..0, first);
        self
    }

    /// Returns its parts of a kind.
    pub fn all(&self, kind: &str) -> impl Iterator<Item = &Node> {
        self.parts.iter().filter(move |part| part.kind == kind)
    }

    /// Returns its first part of a kind.
    pub fn get(&self, kind: &str) -> Option<&Node> {
        self.all(kind).next()
    }

    pub fn has(&self, kind: &str) -> bool {
        self.get(kind).is_some()
    }

    /// Returns the comments between two tokens. What documents a file belongs to nothing in it.
    pub fn comments(&self) -> Vec<&str> {
        let lines = self.text.lines().map(str::trim);
        lines.filter(|it| it.starts_with("//") && !it.starts_with("//!")).collect()
    }

    /// Returns its last part, which it must have.
    pub fn last(&self) -> &Node {
        &self.parts[self.parts.len() - 1]
    }

    /// Returns its name, or nothing.
    pub fn name(&self) -> &str {
        self.get("name").map_or("", |name| &name.text)
    }

    /// Returns the names of a path, without their arguments.
    pub fn names(&self) -> Vec<&str> {
        self.parts.iter().map(Node::name).collect()
    }

    /// Returns the items in a trait or an `impl`.
    pub fn members(&self) -> &[Node] {
        self.get("members").map_or(&[], |members| &members.parts)
    }

    /// Returns the trait of an `impl`, if it has one.
    pub fn of_trait(&self) -> Option<&Node> {
        self.all("path").find(|path| path.rule == "path.trait")
    }

    /// Returns the type that an `impl` is for.
    pub fn target(&self) -> &Node {
        &self.parts[self.parts.len() - 2]
    }

    /// Says whether an item is `pub`, and not only `pub(crate)`.
    pub fn is_public(&self) -> bool {
        self.get("visibility").is_some_and(|visibility| visibility.has("public"))
    }

    /// Says whether an attribute of this kind stands before an item.
    pub fn has_attribute(&self, kind: &str) -> bool {
        self.get("notes").is_some_and(|notes| notes.has(kind))
    }

    /// Returns the parameters of a function or an item that are types, or those that are constants.
    pub fn generics(&self, rule: &str) -> impl Iterator<Item = &Node> {
        let generics = self.get("generics").into_iter().flat_map(|generics| &generics.parts);
        generics.filter(move |it| it.rule == rule)
    }

    /// Returns the paths of a `use`, each with all its names, of which the last is imported. It is `*` for all names.
    pub fn imports(&self) -> Vec<Vec<&Node>> {
        let Some(imported) = self.get("imported") else { return Vec::new() };
        let path: Vec<&Node> = imported.parts.iter().collect();
        let listed = self.all("import").map(|it| [&path[..], &[it.last()]].concat());
        if self.has("import") { listed.collect() } else { vec![path] }
    }
}

/// Returns the names of a path of a `use`.
pub fn texts<'a>(path: &[&'a Node]) -> Vec<&'a str> {
    path.iter().map(|name| name.text.as_str()).collect()
}

pub fn is_comparison(operator: &str) -> bool {
    matches!(operator, "==" | "!=" | "<" | ">" | "<=" | ">=")
}

/// Says whether the second operand may have another type.
pub fn is_shift(operator: &str) -> bool {
    matches!(operator, "<<" | ">>")
}
