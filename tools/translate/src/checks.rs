//! Refuses names that stand for something else in Rust, hide another, or are not known in both languages.

use crate::modules::{CRATES, Module, Package};
use crate::resolve::{Definition, Resolved, Scopes};
use crate::source::{Done, Source, Span};
use crate::std_names::{self, has, is_capital};
use crate::tree::Node;
use std::collections::{BTreeMap, BTreeSet};

// Our methods that are called. No type of `std` has a method of such a name.
const OWN_METHODS: &str = "index parts put_message text tick guessed_number next_number read_guessed \
    read_part read_plain";

// Names with which Rust begins paths, and those of what the Rust leaves out or replaces.
const RESERVED: &str = "std core alloc proved Model Formatter";

// The rule for a path that is called.
const CALLEE: &str = "path.callee";

/// Checks all modules.
pub fn check(package: &Package, scopes: &Scopes) -> Done<()> {
    let members = &members(package)?;
    for (module, Module { source, items, .. }) in package.modules.iter().enumerate() {
        for item in items {
            let locals = BTreeSet::new();
            Names { scopes, module, source, members, locals }.node(item)?;
        }
    }
    Ok(())
}

// Returns the names of what belongs to types of the package, and of methods, whether one is of a trait. Refuses a
// method of a trait of ours that has the name of another of ours: which one a call means depends on the type.
fn members(package: &Package) -> Done<BTreeMap<&str, Option<bool>>> {
    let mut members = BTreeMap::new();
    for Module { source, items, .. } in &package.modules {
        for item in items.iter().filter(|item| item.of_trait().is_none()) {
            let is_of_trait = item.kind == "trait";
            for member in item.members().iter().filter(|member| member.has("name")) {
                let name = member.name();
                if !member.has("receiver") {
                    members.entry(name).or_default();
                    continue;
                }
                let other = members.insert(name, Some(is_of_trait)).flatten();
                if other.is_some_and(|other| other || is_of_trait) {
                    let reason = format!("a second method by the name `{name}`");
                    return Err(source.fault(member.span, reason));
                }
            }
        }
    }
    Ok(members)
}

struct Names<'a> {
    scopes: &'a Scopes<'a>,
    module: usize,
    source: &'a Source,
    members: &'a BTreeMap<&'a str, Option<bool>>,
    // The local names of the item up to here. Where each is known, Rust finds as Rattle does.
    locals: BTreeSet<&'a str>,
}

impl<'a> Names<'a> {
    // Checks the names in something.
    fn node(&mut self, node: &'a Node) -> Done<()> {
        match node.kind {
            "use" => node.imports().iter().try_for_each(|path| self.import(path))?,
            "declaration" | "function" | "renamed" => self.declare(node, false)?,
            "constant" | "alias" | "struct" | "enum" | "variant" | "trait" => {
                self.declare(node, true)?;
            }
            "implementation" | "model" => self.implementation(node)?,
            "path" => self.assert(self.is_known(node), node.span)?,
            "method" => {
                let Node { text: name, span, .. } = &node.parts[1];
                let is_own = self.members.get(name.as_str()).is_some_and(Option::is_some);
                let known = if is_own { OWN_METHODS } else { std_names::METHODS };
                self.assert(has(known, name), *span)?;
            }
            "parameter" | "binding" | "generic" => {
                node.all("name").try_for_each(|name| self.local(name))?;
            }
            _ => {}
        }
        node.parts.iter().try_for_each(|part| self.node(part))
    }

    // Declares a local name. It must not hide an item, or mean something without being declared.
    fn local(&mut self, name: &'a Node) -> Done<()> {
        let hidden = self.scopes.get(self.module, &name.text);
        let hides = hidden.is_some_and(|it| !matches!(it, Definition::Module(_)));
        self.assert(!hides && !is_reserved(&name.text), name.span)?;
        self.locals.insert(&name.text);
        Ok(())
    }

    // Refuses an import that hides what is built in.
    fn import(&self, path: &[&Node]) -> Done<()> {
        let Node { text, span, .. } = path[path.len() - 1];
        self.assert(!std_names::is_built_in(text), *span)
    }

    // Refuses what has a name that hides another, or looks like one of another kind. Patterns are read by the case of
    // their names: a small one binds.
    fn declare(&self, item: &Node, is_large: bool) -> Done<()> {
        let Some(Node { text, span, .. }) = item.get("name") else { return Ok(()) };
        self.assert(is_capital(text) == is_large && !is_reserved(text), *span)
    }

    // Refuses what is not as it should be.
    fn assert(&self, is_right: bool, span: Span) -> Done<()> {
        if is_right {
            return Ok(());
        }
        let text = self.source.at(span).lines().next().unwrap_or_default();
        let reason = format!("`{text}` is not known here, or means something else in Rust");
        Err(self.source.fault(span, reason))
    }

    // Refuses an `impl` for types that users can make, which may have a trait of ours then: each parameter must have
    // a trait of ours itself, which no type of theirs has.
    fn implementation(&self, item: &Node) -> Done<()> {
        let is_of_std = |bound: &Node| has(std_names::BOUNDS, bound.last().name());
        let is_open = |it: &&Node| it.get("path").is_none_or(is_of_std);
        let reason = "an `impl` for types that users can make";
        let open = item.generics("generic.type").find(is_open);
        open.map_or(Ok(()), |open| Err(self.source.fault(open.span, reason)))
    }

    // Whether a path stands for something that may be where it stands, as its rule says.
    fn is_known(&self, path: &Node) -> bool {
        let role = path.rule;
        // A function is called, and no value.
        let is_used = |name| role == CALLEE || is_capital(name);
        let is_member = |name| self.members.contains_key(name) && is_used(name);
        let names = path.names();
        match names[..] {
            ["self" | "Self"] => return true,
            // A variable that is called would be a pointer to a function.
            [name] if self.locals.contains(name) => return role != CALLEE,
            [first, name] if first == "Self" || self.locals.contains(first) => {
                return is_member(name);
            }
            _ => {}
        }
        let Some(Resolved { definition, used }) = self.scopes.resolve(self.module, &names) else {
            return false;
        };
        match (&names[used..], &definition) {
            // What is called through a value need not meet its conditions.
            ([], Definition::Item(id)) => {
                role == CALLEE || self.scopes.item(*id).kind != "function"
            }
            ([], Definition::Foreign(path)) => match role {
                "path.bound" => has(std_names::BOUNDS, path),
                "path.trait" => has(std_names::IMPLEMENTED, path),
                _ => true,
            },
            ([], found) => matches!(found, Definition::Variant(..)),
            ([name], Definition::Foreign(_)) => has(std_names::ASSOCIATED, name) && is_used(name),
            ([name], _) => is_member(name),
            _ => false,
        }
    }
}

// Whether a name means something without being declared.
fn is_reserved(name: &str) -> bool {
    std_names::is_built_in(name) || CRATES.contains(&name) || has(RESERVED, name)
}
