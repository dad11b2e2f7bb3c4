//! Functions and their statements as C.

use super::ir::{Bindings, Done, Form, Function, Id, Instance, Kind, Local, Term, Type};
use super::lower::called;
use super::terms;
use super::text::{self, comment, wrapped};
use super::types::{declared, short};
use super::world::World;
use crate::tree::Node;
use std::collections::{BTreeMap, BTreeSet};

/// All that is printed.
pub struct Printer<'a> {
    pub world: &'a World<'a>,
    /// The definitions of types.
    pub definitions: Vec<String>,
    pub names: BTreeMap<Instance, String>,
    /// Whether operators say that nothing overflows.
    pub is_checked: bool,
    pub constants: Vec<String>,
    /// What has a name, and what it is.
    pub known: BTreeMap<String, String>,
    pub functions: Vec<String>,
    /// The function that is printed, and its variables, as they are named in C.
    pub id: Id,
    pub locals: Vec<Local>,
    /// The names that are declared in the blocks around the current statement.
    scopes: Vec<BTreeSet<String>>,
    lines: String,
}

impl<'a> Printer<'a> {
    pub fn new(
        world: &'a World<'a>,
        functions: &[&Function],
        is_checked: bool,
    ) -> Done<Printer<'a>> {
        Ok(Printer {
            world,
            definitions: Vec::new(),
            names: names(world, functions)?,
            is_checked,
            constants: Vec::new(),
            known: BTreeMap::new(),
            functions: Vec::new(),
            id: Id { module: 0, item: 0, member: None },
            locals: Vec::new(),
            scopes: Vec::new(),
            lines: String::new(),
        })
    }

    /// Returns what was printed since the last time.
    pub fn take(&mut self) -> String {
        let lists = [&mut self.definitions, &mut self.constants, &mut self.functions];
        lists.map(std::mem::take).concat().join("\n")
    }

    /// Declares a function that another file defines.
    pub fn declaration(&mut self, function: &Function, qualifier: &str) -> Done<()> {
        let head = self.head(function, qualifier)?;
        let name = &self.names[&function.key];
        self.functions.push(wrapped(&format!("{head} TK_SYMBOL({name});")) + "\n");
        Ok(())
    }

    /// Prints a function behind those before it.
    pub fn function(&mut self, function: &Function, qualifier: &str) -> Done<()> {
        let (world, id) = (self.world, function.key.id);
        let head = wrapped(&self.head(function, qualifier)?);
        self.statement(&function.body)?;
        let source = &world.module(id).source;
        let place = format!("{}:{}", source.path.display(), source.line(world.item(id).span));
        // A function is explained once.
        let is_new = self.known.insert(place.clone(), String::new()).is_none();
        let comment = if is_new { explained(world, id) } else { String::new() };
        let (place, lines) = (place.trim_start_matches("crates/"), &self.lines);
        self.functions.push(format!("{comment}/* {place} */\n{head}\n{{\n{lines}}}\n"));
        Ok(())
    }

    // Starts a function, and returns its line.
    fn head(&mut self, function: &Function, qualifier: &str) -> Done<String> {
        (self.id, self.locals) = (function.key.id, function.locals.clone());
        (self.scopes, self.lines) = (vec![BTreeSet::new()], String::new());
        let kinds = function.body.kinds();
        let mut parameters = Vec::new();
        for local in &function.parameters {
            let of = &function.locals[*local].of;
            if self.world.is_zero(of) {
                continue;
            }
            let name = self.name_local(*local);
            parameters.push(declared(&self.name(of)?, &name));
            if !kinds.contains(&&Kind::Local(*local)) {
                self.lines += &format!("    (void){name};\n");
            }
        }
        let parameters = if parameters.is_empty() { "void".into() } else { parameters.join(", ") };
        let result = self.name(&function.result)?;
        let head = declared(&result, &self.names[&function.key]);
        Ok(format!("{qualifier} {head}({parameters})"))
    }

    fn line(&mut self, line: &str) {
        let line = wrapped(&format!("{}{line}", "    ".repeat(self.scopes.len() - 1)));
        self.lines += &line;
        self.lines.push('\n');
    }

    // Gives a variable a name that hides no other.
    fn name_local(&mut self, local: usize) -> String {
        let name = text::local(&self.locals[local].name);
        let numbered = (2..).map(|number| format!("{name}_{number}"));
        let is_taken = |name: &String| self.scopes.iter().any(|scope| scope.contains(name));
        let free = std::iter::once(name.clone()).chain(numbered).find(|name| !is_taken(name));
        let free = free.unwrap_or(name);
        if let Some(scope) = self.scopes.last_mut() {
            scope.insert(free.clone());
        }
        self.locals[local].name = free.clone();
        free
    }

    fn statement(&mut self, statement: &Term) -> Done<()> {
        let parts = &statement.parts;
        match &statement.kind {
            Kind::Block => {
                self.scopes.push(BTreeSet::new());
                parts.iter().try_for_each(|it| self.statement(it))?;
                self.scopes.pop();
            }
            Kind::Comment(lines) => {
                let lines = lines.iter().map(String::as_str).collect();
                self.lines += &comment(lines, &"    ".repeat(self.scopes.len() - 1));
            }
            Kind::Declare(local) => self.declare(*local, &parts[0])?,
            Kind::Assign => self.assign(&parts[0], &parts[1])?,
            Kind::If => {
                self.with_term("if (", &parts[0], ") {")?;
                self.statement(&parts[1])?;
                if !parts[2].parts.is_empty() {
                    self.line("} else {");
                    self.statement(&parts[2])?;
                }
                self.line("}");
            }
            Kind::While => {
                match parts[0].kind {
                    Kind::Boolean(true) => self.line("for (;;) {"),
                    _ => self.with_term("while (", &parts[0], ") {")?,
                }
                self.statement(&parts[1])?;
                self.line("}");
            }
            Kind::Break => self.line("break;"),
            _ => self.with_term("return ", &parts[0], ";")?,
        }
        Ok(())
    }

    // Prints a line with a term.
    fn with_term(&mut self, before: &str, term: &Term, after: &str) -> Done<()> {
        let text = terms::print(self, term)?.text;
        self.line(&format!("{before}{text}{after}"));
        Ok(())
    }

    fn declare(&mut self, local: usize, value: &Term) -> Done<()> {
        let of = self.locals[local].of.clone();
        let is_array = value.kind == Kind::Elements;
        // The value may name what the variable hides.
        let text = match is_array {
            true => terms::initializer(self, value)?,
            false => terms::print(self, value)?.text,
        };
        let name = self.name_local(local);
        let declared = match &of {
            Type::Of(Form::Array { length }, parts) if is_array => {
                format!("const {} {name}[{length}]", self.name(&parts[0])?)
            }
            of => declared(&self.name(of)?, &name),
        };
        self.line(&format!("{declared} = {text};"));
        Ok(())
    }

    fn assign(&mut self, place: &Term, value: &Term) -> Done<()> {
        let target = terms::print(self, place)?;
        let is_short = place.of.integer().is_some_and(|it| (32..=64).contains(&it.bits()));
        let is_sum = value.kind == Kind::Binary("+") && !self.is_checked;
        let mut text = format!("{} = {}", target.text, terms::print(self, value)?.text);
        if is_sum && is_short && terms::print(self, &value.parts[0])?.text == target.text {
            text = match terms::print(self, &value.parts[1])?.text.as_str() {
                "1" => format!("{}++", target.at(text::ATOM)),
                value => format!("{} += {value}", target.text),
            };
        }
        self.line(&format!("{text};"));
        Ok(())
    }
}

/// Returns the comment before an item: what documents it, or else what stands before it.
pub fn explained(world: &World, id: Id) -> String {
    let Some(notes) = world.item(id).get("notes") else { return String::new() };
    let docs: Vec<&str> = notes.all("doc").map(|it| it.text.as_str()).collect();
    let comments = notes.all("comments").flat_map(Node::comments).collect();
    comment(if docs.is_empty() { comments } else { docs }, "")
}

/// Returns what a compiler has to do with a function, as its attributes say it. What calls itself cannot be inlined.
pub fn qualifier(world: &World, function: &Function) -> &'static str {
    let id = function.key.id;
    if super::is_called(world, &function.key) || called(function).contains(&function.key) {
        return "TK_NOINLINE";
    }
    let qualifiers = [("cold", "TK_COLD"), ("never", "TK_NOINLINE"), ("always", "TK_INLINE")];
    let item = world.item(id);
    let found = qualifiers.into_iter().find(|(attribute, _)| item.has_attribute(attribute));
    found.map_or("TK_HINTED", |(_, qualifier)| qualifier)
}

// Returns the names of functions. Those of one name get what they differ in: the engine that is chosen, which has no
// bytes, or their modules.
fn names(world: &World, functions: &[&Function]) -> Done<BTreeMap<Instance, String>> {
    let mut named: BTreeMap<String, Vec<&Instance>> = BTreeMap::new();
    for function in functions {
        named.entry(plain_name(world, &function.key)?).or_default().push(&function.key);
    }
    let (mut names, mut taken) = (BTreeMap::new(), BTreeSet::new());
    for (name, keys) in named {
        for key in &keys {
            let module = world.module(key.id);
            let last = module.path.last().filter(|last| *last != "calls");
            let own = match keys.iter().filter(|it| it.id == key.id).count() {
                _ if keys.len() == 1 => name.clone(),
                1 => format!("{}_{name}", last.map_or(module.crate_name, String::as_str)),
                _ => name.clone() + &chosen(world, key, true),
            };
            if !taken.insert(own.clone()) {
                return Err(world.fault_of(key.id, format!("two functions `{own}`")));
            }
            names.insert((*key).clone(), format!("tk_{own}"));
        }
    }
    Ok(names)
}

// Returns the types that a function is for, those with or without bytes.
fn chosen(world: &World, key: &Instance, is_zero: bool) -> String {
    let chosen = key.bindings.values().filter(|of| world.is_zero(of) == is_zero);
    chosen.map(|of| format!("_{}", short(world, of))).collect()
}

fn plain_name(world: &World, key: &Instance) -> Done<String> {
    let name = text::snake(world.name(key.id));
    let place = world.place(key.id, &Bindings::new())?;
    let name = match place.bindings.get("Self") {
        None | Some(Type::Parameter(_)) => name,
        Some(own @ Type::Of(Form::Item(_), _)) => format!("{}_{name}", short(world, own)),
        Some(own) => format!("{name}_{}", short(world, own)),
    };
    Ok(name + &chosen(world, key, false))
}
