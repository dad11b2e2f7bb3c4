//! What the names in a module stand for: its items, what its `use` lines import, and what is built in. Rust keeps
//! names of types and of values apart. Here no two items of a module have one name, so that nothing depends on that.

use crate::modules::{CRATES, Module, Package};
use crate::source::{Done, Fault, Span};
use crate::std_names::{self, has};
use crate::tree::{Node, texts};
use std::collections::BTreeMap;

/// An item of a module, or a member of an `impl` or a trait.
#[derive(Clone, Copy, Debug, PartialEq, Eq, PartialOrd, Ord)]
pub struct Id {
    pub module: usize,
    pub item: usize,
    pub member: Option<usize>,
}

/// What a name stands for. Modules and items are numbered as in the package and in the tree of their module.
#[derive(Clone, Debug, PartialEq, Eq)]
pub enum Definition {
    Module(usize),
    Item(Id),
    // A variant of the `enum` that this item is, by its number.
    Variant(Id, usize),
    // What is built in or of Rattle's `std`, by its whole path, such as `u8` or `std::fmt::Display`.
    Foreign(String),
}

/// What the start of a path stands for, and how many of its names that start has. The others are names of
/// what belongs to a type.
pub struct Resolved {
    pub definition: Definition,
    pub used: usize,
}

/// The names of all modules.
pub struct Scopes<'a> {
    pub package: &'a Package,
    modules: Vec<BTreeMap<String, Definition>>,
}

impl<'a> Scopes<'a> {
    /// Refuses two items of one name, modules without a file, and imports of what is not there. What another module
    /// imports can be imported in later modules: the root of a crate is its first, and crates are in their order.
    pub fn new(package: &'a Package) -> Done<Scopes<'a>> {
        let mut scopes = Scopes { package, modules: vec![BTreeMap::new(); package.modules.len()] };
        for (number, module) in package.modules.iter().enumerate() {
            scopes.declare_items(number, module)?;
        }
        for (number, module) in package.modules.iter().enumerate() {
            let mut declared = scopes.modules.iter().flat_map(BTreeMap::values);
            if !module.path.is_empty() && !declared.any(|it| *it == Definition::Module(number)) {
                let reason = "no `mod` declares this module";
                return Err(Fault::of_file(&module.source.path, reason));
            }
            for item in &module.items {
                item.imports().iter().try_for_each(|path| scopes.import(number, item, path))?;
            }
        }
        Ok(scopes)
    }

    fn declare_items(&mut self, number: usize, module: &Module) -> Done<()> {
        for (item, node) in module.items.iter().enumerate() {
            let Some(name) = node.get("name") else { continue };
            let mut definition = Definition::Item(Id { module: number, item, member: None });
            if node.kind == "declaration" {
                let below = [&*module.path, std::slice::from_ref(&name.text)].concat();
                let found = self.package.find(module.crate_name, &below);
                let missing = || module.source.fault(name.span, "a module without a file");
                definition = Definition::Module(found.ok_or_else(missing)?);
            }
            self.declare(number, &name.text, name.span, definition)?;
        }
        Ok(())
    }

    fn declare(&mut self, module: usize, name: &str, at: Span, what: Definition) -> Done<()> {
        let second = self.modules[module].insert(name.into(), what);
        let reason = format!("a second item by the name `{name}`");
        second.map_or(Ok(()), |_| Err(self.module(module).source.fault(at, reason)))
    }

    // Adds what a path of a `use` imports to the names of a module.
    fn import(&mut self, module: usize, item: &Node, path: &[&Node]) -> Done<()> {
        let (names, last) = (texts(path), path[path.len() - 1]);
        let path = names.join("::");
        let found = match names[0] {
            "std" => has(std_names::PATHS, &path).then(|| foreign(&names)),
            name if name == "crate" || CRATES.contains(&name) => {
                let found = self.resolve(module, &names);
                found.filter(|it| it.used == names.len()).map(|it| it.definition)
            }
            _ => None,
        };
        let source = &self.module(module).source;
        let unknown = || source.fault(last.span, format!("`{path}` is not known here"));
        let name = &item.get("renamed").map_or(last, Node::last).text;
        self.declare(module, name, last.span, found.ok_or_else(unknown)?)
    }

    /// Resolves a path in a module. Its first name must not be `Self`, a parameter or a variable.
    pub fn resolve(&self, module: usize, names: &[&str]) -> Option<Resolved> {
        let (first, others) = names.split_first()?;
        let head = if *first == "crate" { self.module(module).crate_name } else { first };
        let mut definition = match self.get(module, head) {
            Some(definition) => definition.clone(),
            None if CRATES.contains(&head) => Definition::Module(self.package.find(head, &[])?),
            None if std_names::is_built_in(head) => foreign(&[head]),
            None => return None,
        };
        for (before, name) in others.iter().enumerate() {
            let next = match &definition {
                Definition::Module(module) => Some(self.get(*module, name)?.clone()),
                Definition::Item(id) => {
                    let mut variants = self.item(*id).all("variant");
                    let variant = variants.position(|it| it.name() == *name);
                    variant.map(|variant| Definition::Variant(*id, variant))
                }
                Definition::Foreign(path) if has(std_names::PATHS, &format!("{path}::{name}")) => {
                    Some(foreign(&[path, name]))
                }
                Definition::Foreign(_) | Definition::Variant(..) => None,
            };
            let Some(next) = next else { return Some(Resolved { definition, used: before + 1 }) };
            definition = next;
        }
        Some(Resolved { definition, used: names.len() })
    }

    /// Returns an item, or the one that holds a member.
    pub fn item(&self, id: Id) -> &'a Node {
        &self.module(id.module).items[id.item]
    }

    /// Returns a module by its number.
    pub fn module(&self, number: usize) -> &'a Module {
        &self.package.modules[number]
    }

    /// Returns what a module declares or imports by a name.
    pub fn get(&self, module: usize, name: &str) -> Option<&Definition> {
        self.modules[module].get(name)
    }
}

impl Definition {
    /// Returns the item that it is.
    pub fn item(&self) -> Option<Id> {
        if let Definition::Item(id) = self { Some(*id) } else { None }
    }
}

fn foreign(names: &[&str]) -> Definition {
    Definition::Foreign(names.join("::"))
}
