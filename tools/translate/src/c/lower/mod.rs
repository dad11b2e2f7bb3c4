//! From the trees of functions to their typed form: each generic one for the types that matter to it, from what is asked
//! for. Types are inferred on the way.

mod calls;
mod patterns;
mod statements;
mod values;

use super::ir::*;
use super::world::{World, integer};
use crate::parser::parse;
use crate::source::{Source, Span};
use crate::tree::Node;
use std::collections::{BTreeMap, BTreeSet};
use std::mem::take;
use std::path::Path;

/// The functions that were tried. Each is tried with parameters that stand for themselves, and then once more for
/// each parameter of which more than constants matters.
pub struct Instances<'w> {
    pub world: &'w World<'w>,
    tried: BTreeMap<Instance, Attempt>,
}

enum Attempt {
    Started,
    /// The type of this parameter matters.
    Needs(String),
    Made(Box<Function>),
}

impl<'w> Instances<'w> {
    pub fn new(world: &'w World<'w>) -> Instances<'w> {
        Instances { world, tried: BTreeMap::new() }
    }

    /// Adds a function for what its parameters stand for, and all that it calls. Returns it with those that matter.
    pub fn add(&mut self, callee: &Instance) -> Done<Instance> {
        let mut key = Instance { id: callee.id, bindings: Bindings::new() };
        loop {
            match self.tried.get(&key) {
                Some(Attempt::Needs(name)) => {
                    let of = self.world.erased(&callee.bindings[name]);
                    key.bindings.insert(name.clone(), of);
                }
                Some(Attempt::Started) if key.bindings.len() < callee.bindings.len() => {
                    let reason = "a generic function that calls itself";
                    return Err(self.world.fault_of(key.id, reason));
                }
                Some(Attempt::Started | Attempt::Made(_)) => return Ok(key),
                None => {
                    self.tried.insert(key.clone(), Attempt::Started);
                    let mut lowering = Lowering::new(self, &key, callee.bindings.clone())?;
                    let made = lowering.function(&key, false);
                    let attempt = match lowering.needed {
                        Some(name) => Attempt::Needs(name),
                        None => Attempt::Made(Box::new(made?)),
                    };
                    self.tried.insert(key.clone(), attempt);
                }
            }
        }
    }

    /// The same for a function of which each type has a short one, which passes the constants of the type.
    pub fn add_short(&mut self, key: &Instance) -> Done<Instance> {
        let function = Lowering::new(self, key, key.bindings.clone())?.function(key, true)?;
        if self.tried.insert(key.clone(), Attempt::Made(Box::new(function))).is_some() {
            return Err(self.world.fault_of(key.id, "a function whose type matters"));
        }
        Ok(key.clone())
    }

    pub fn get(&self, key: &Instance) -> Option<&Function> {
        if let Some(Attempt::Made(function)) = self.tried.get(key) { Some(function) } else { None }
    }

    /// Finds a function and those that it calls, each behind those that it calls, but none that was seen. What ends
    /// calls is not looked into.
    pub fn reach<'s>(
        &'s self,
        key: &Instance,
        is_end: &dyn Fn(&Function) -> bool,
        found: &mut Vec<&'s Function>,
        seen: &mut BTreeSet<Instance>,
    ) {
        let Some(function) = self.get(key).filter(|_| seen.insert(key.clone())) else { return };
        let inner = if is_end(function) { Vec::new() } else { called(function) };
        inner.iter().for_each(|key| self.reach(key, is_end, found, seen));
        found.push(function);
    }
}

/// Returns the functions that a function calls.
pub fn called(function: &Function) -> Vec<Instance> {
    let callee = |it: &Kind| if let Kind::Call(callee) = it { Some(callee.clone()) } else { None };
    function.body.kinds().into_iter().filter_map(callee).collect()
}

struct Lowering<'w, 'i> {
    world: &'w World<'w>,
    instances: &'i mut Instances<'w>,
    /// The function that is lowered, and what is known of its parameters.
    place: Instance,
    /// The types of all parameters in one call, also of those that stand for themselves.
    open: Bindings,
    /// Such a parameter whose type matters, if one is found.
    needed: Option<String>,
    /// The constants of such parameters that the function gets, and their variables.
    constants: BTreeMap<(String, Id), usize>,
    /// The part of the source that is lowered, which terms and faults name.
    at: Span,
    /// What is known of types that were unknown at first.
    variables: Vec<Option<Type>>,
    locals: Vec<Local>,
    /// What names stand for, those of inner scopes last.
    names: Vec<(String, Term)>,
    /// The statements of the block that is made.
    statements: Vec<Term>,
    result: Type,
}

/// Where the value of an expression goes.
#[derive(Clone, Copy, Debug, PartialEq)]
enum Target {
    Return,
    Nothing,
    Value,
}

/// Returns the function that a path names, first by its crate, where `T` stands for a type.
pub fn root(instances: &mut Instances, path: &str, of: Type) -> Done<Instance> {
    let (name, path) = path.split_once("::").unwrap_or_default();
    let modules = &instances.world.scopes.package.modules;
    let module = modules.iter().position(|it| it.crate_name == name && it.path.is_empty());
    let id = Id { module: module.unwrap_or_default(), item: 0, member: None };
    let key = Instance { id, bindings: Bindings::from([("T".into(), of.clone())]) };
    let mut lowering = Lowering::new(instances, &key, Bindings::new())?;
    let paths = parse(&Source::new(Path::new("C"), format!("[{path}]")), "list")?;
    let mut callee = lowering.callee(&paths[0])?;
    let is_signed = of.integer().is_some_and(|it| it.is_signed());
    let word = Type::Integer(Integer(if is_signed { "i64" } else { "u64" }));
    callee.bindings.extend([("T".into(), of), ("W".into(), word)]);
    Ok(callee)
}

/// Returns the value of a constant.
pub fn constant(world: &World, id: Id) -> Done<Term> {
    let mut instances = Instances::new(world);
    let key = Instance { id, bindings: Bindings::new() };
    let mut lowering = Lowering::new(&mut instances, &key, Bindings::new())?;
    let ("constant", [.., annotation, value]) = (world.item(id).kind, &world.item(id).parts[..])
    else {
        return lowering.refuse("no constant with a value");
    };
    let of = world.type_in(&lowering.place, annotation)?;
    let mut term = lowering.alone("a constant", value.last(), &of)?;
    lowering.end(&mut term, &mut Vec::new())?;
    Ok(term)
}

/// Returns the types of the parameters of a function, first those of its generic constants, and its result.
pub fn signature(world: &World, callee: &Instance) -> Done<(Vec<Type>, Type)> {
    let place = world.place(callee.id, &callee.bindings)?;
    let tree = world.item(callee.id);
    if tree.kind != "function" {
        return Err(world.fault_of(callee.id, "no function"));
    }
    let types =
        parameters_of(tree).map(|it| match (it.kind, it.has("shared"), it.has("mutable")) {
            ("receiver", true, true) => Ok(Type::pointer(place.bindings["Self"].clone())),
            ("receiver", ..) => Ok(place.bindings["Self"].clone()),
            _ => world.type_in(&place, it.last()),
        });
    let types = types.collect::<Done<Vec<Type>>>()?;
    let output = tree.get("output").map(|it| world.type_in(&place, it.last())).transpose()?;
    Ok((types, output.unwrap_or(Type::UNIT)))
}

// Returns the generic constants of a function, the receiver, and the other parameters.
fn parameters_of(function: &Node) -> impl Iterator<Item = &Node> {
    let constants = function.generics("generic.constant");
    constants.chain(function.all("receiver")).chain(function.all("parameter"))
}

impl<'w, 'i> Lowering<'w, 'i> {
    fn new(instances: &'i mut Instances<'w>, key: &Instance, open: Bindings) -> Done<Self> {
        let world = instances.world;
        Ok(Lowering {
            world,
            instances,
            place: world.place(key.id, &key.bindings)?,
            open,
            needed: None,
            constants: BTreeMap::new(),
            at: world.item(key.id).span,
            variables: Vec::new(),
            locals: Vec::new(),
            names: Vec::new(),
            statements: Vec::new(),
            result: Type::UNIT,
        })
    }

    fn function(&mut self, key: &Instance, is_short: bool) -> Done<Function> {
        let world = self.world;
        let tree = world.item(key.id);
        let body = self.expect(tree.get("block"), "no function with a body")?;
        let (types, result) = signature(world, key)?;
        self.require(result != Type::UNIT, "a function without a result")?;
        self.result = result;
        let mut parameters = Vec::new();
        for (parameter, of) in parameters_of(tree).zip(types) {
            let is_mutable = parameter.has("mutable") && !parameter.has("shared");
            let local = self.variable(parameter.name(), of, is_mutable);
            self.names.push((parameter.name().into(), self.local(local)));
            parameters.push(local);
        }
        if is_short {
            let arguments = parameters.iter().map(|it| self.local(*it)).collect();
            let call = self.make(Kind::Call(key.clone()), arguments, self.result.clone());
            self.push(Kind::Return, vec![call]);
        } else {
            self.evaluate(body, Target::Return)?;
        }
        // All types get what was found, and calls the functions for them.
        let statements = take(&mut self.statements);
        let mut body = self.block_of(statements);
        self.end(&mut body, &mut Vec::new())?;
        for local in 0..self.locals.len() {
            self.locals[local].of = self.settled(&self.locals[local].of.clone())?;
        }
        let result = self.settled(&self.result.clone())?;
        let (locals, constants) = (take(&mut self.locals), take(&mut self.constants));
        let parameters = constants.values().copied().chain(parameters).collect();
        Ok(Function { key: key.clone(), locals, constants, parameters, result, body })
    }

    fn refuse<T>(&self, reason: impl std::fmt::Display) -> Done<T> {
        Err(self.world.fault(self.place.id, self.at, format!("C: {reason}")))
    }

    // Returns what is there, or refuses.
    fn expect<R>(&self, found: Option<R>, reason: &str) -> Done<R> {
        found.map_or_else(|| self.refuse(reason), Ok)
    }

    fn require(&self, condition: bool, reason: &str) -> Done<()> {
        if condition { Ok(()) } else { self.refuse(reason) }
    }

    // Ends this attempt, as the type of a parameter matters.
    fn need<T>(&mut self, name: &str) -> Done<T> {
        self.needed = Some(name.to_string());
        self.refuse("a parameter that matters")
    }

    fn make(&self, kind: Kind, parts: Vec<Term>, of: Type) -> Term {
        Term { kind, parts, of, span: self.at }
    }

    fn boolean(&self, value: bool) -> Term {
        self.make(Kind::Boolean(value), Vec::new(), Type::Boolean)
    }

    // Returns a condition of two terms, or what is known of it.
    fn test(&self, operator: &'static str, left: Term, right: Term) -> Term {
        // No source asks which of two known numbers is greater.
        if let ("==" | "!=", Some(one), Some(other)) = (operator, left.number(), right.number()) {
            return self.boolean((one == other) == (operator == "=="));
        }
        // One constant decides what `&&` or `||` is, and the other leaves it as it is.
        let decides = |it: &Term| it.kind == Kind::Boolean(operator == "||");
        let is_neutral = |it: &Term| it.kind == Kind::Boolean(operator == "&&");
        match operator {
            // Conditions in a row need no parentheses.
            "&&" | "||" if right.kind == Kind::Binary(operator) => {
                let conditions = right.parts.into_iter();
                return conditions.fold(left, |left, right| self.test(operator, left, right));
            }
            "&&" | "||" if decides(&left) || is_neutral(&right) => return left,
            "&&" | "||" if is_neutral(&left) || decides(&right) && !left.has_effect() => {
                return right;
            }
            _ => {}
        }
        self.make(Kind::Binary(operator), vec![left, right], Type::Boolean)
    }

    fn decimal(&self, value: u128, of: Type) -> Term {
        self.make(Kind::Number { value, hexadecimal: 0 }, Vec::new(), of)
    }

    fn size(&self, value: u128) -> Term {
        self.decimal(value, Type::SIZE)
    }

    fn length(&self, slice: &Term) -> Term {
        self.make(Kind::Field(PLAIN, LENGTH), vec![slice.clone()], Type::SIZE)
    }

    fn local(&self, local: usize) -> Term {
        self.make(Kind::Local(local), Vec::new(), self.locals[local].of.clone())
    }

    fn unit(&self) -> Term {
        self.make(Kind::Make(PLAIN), Vec::new(), Type::UNIT)
    }

    fn variable(&mut self, name: &str, of: Type, is_mutable: bool) -> usize {
        self.locals.push(Local { name: name.to_string(), of, is_mutable });
        self.locals.len() - 1
    }

    // Puts a value into a new variable.
    fn hold(&mut self, value: Term, name: &str, is_mutable: bool) -> Term {
        let local = self.variable(name, value.of.clone(), is_mutable);
        self.push(Kind::Declare(local), vec![value]);
        self.local(local)
    }

    // Makes something in a scope and a list of statements of its own.
    fn apart<R>(&mut self, make: impl FnOnce(&mut Self) -> Done<R>) -> Done<(Vec<Term>, R)> {
        let (before, names) = (take(&mut self.statements), self.names.len());
        let made = make(self);
        self.names.truncate(names);
        Ok((std::mem::replace(&mut self.statements, before), made?))
    }

    // Evaluates an expression that must need no statements.
    fn alone(&mut self, what: &str, expression: &Node, of: &Type) -> Done<Term> {
        let (statements, term) = self.apart(|it| it.term(expression, of))?;
        self.require(statements.is_empty(), &format!("statements in {what}"))?;
        Ok(term)
    }

    // Adds a statement to the block that is made.
    fn push(&mut self, kind: Kind, parts: Vec<Term>) {
        let statement = self.make(kind, parts, Type::UNIT);
        self.extend(vec![statement]);
    }

    fn block_of(&self, statements: Vec<Term>) -> Term {
        self.make(Kind::Block, statements, Type::UNIT)
    }

    // Nothing follows a statement that leaves.
    fn extend(&mut self, statements: Vec<Term>) {
        for statement in statements {
            if !self.statements.last().is_some_and(Term::leaves) {
                self.statements.push(statement);
            }
        }
    }

    // Evaluates an expression of any type.
    fn any(&mut self, expression: &Node) -> Done<Term> {
        self.evaluate(expression, Target::Value)
    }

    /// Evaluates an expression to a term of a type.
    fn term(&mut self, expression: &Node, of: &Type) -> Done<Term> {
        let term = self.any(expression)?;
        self.coerce(term, of)
    }
}

// The operator that a sign is.
fn operator(sign: &Node) -> &'static str {
    let all = crate::c::terms::OPERATORS.iter().map(|it| it.0);
    all.into_iter().find(|it| *it == sign.text).unwrap_or_default()
}
