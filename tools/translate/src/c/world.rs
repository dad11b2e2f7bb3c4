//! What the sources declare: functions, constants, types and their members, by their numbers.

use super::ir::{Bindings, Done, Form, Id, Instance, Integer, Type};
use crate::lexer::number;
use crate::modules::Module;
use crate::resolve::{Definition, Scopes};
use crate::source::{Fault, Span};
use crate::std_names::{INTEGERS, has};
use crate::tree::Node;

pub struct World<'a> {
    pub scopes: &'a Scopes<'a>,
    implementations: Vec<Implementation>,
}

/// An `impl`: the type that it is for, with its parameters, and the trait.
struct Implementation {
    id: Id,
    target: Type,
    of_trait: Option<Id>,
}

/// One way to make values of a type: its name, and the names and types of its fields.
pub struct Variant {
    pub name: String,
    pub fields: Vec<(String, Type)>,
}

impl<'a> World<'a> {
    pub fn new(scopes: &'a Scopes<'a>) -> World<'a> {
        let mut world = World { scopes, implementations: Vec::new() };
        // C has words only.
        let of_words = |(_, it): &(usize, &Module)| it.crate_name != "atoi_lanes";
        for (module, found) in scopes.package.modules.iter().enumerate().filter(of_words) {
            let items = found.items.iter().enumerate();
            for (item, it) in items.filter(|(_, it)| it.kind == "implementation") {
                let id = Id { module, item, member: None };
                // What C has no type for has no functions in C.
                let Ok(Instance { bindings, .. }) = world.place(id, &Bindings::new()) else {
                    continue;
                };
                let of_trait = it.of_trait().and_then(|path| scopes.resolve(module, &path.names()));
                let of_trait = of_trait.and_then(|found| found.definition.item());
                let target = bindings["Self"].clone();
                world.implementations.push(Implementation { id, target, of_trait });
            }
        }
        world
    }

    pub fn module(&self, id: Id) -> &'a Module {
        self.scopes.module(id.module)
    }

    pub fn item(&self, id: Id) -> &'a Node {
        let owner = self.scopes.item(id);
        id.member.map_or(owner, |member| &owner.members()[member])
    }

    /// Returns the name of an item or a member.
    pub fn name(&self, id: Id) -> &'a str {
        self.item(id).name()
    }

    /// Returns the place in an item: what it and its owner declare, and what is known of that.
    pub fn place(&self, id: Id, known: &Bindings) -> Done<Instance> {
        let (own, owner) = (Id { member: None, ..id }, self.scopes.item(id));
        let mut names = [self.parameters(own), self.parameters(id)].concat();
        if owner.kind == "trait" {
            names.push("Self".into());
        }
        let open = names.into_iter().map(|name| (name.clone(), Type::Parameter(name)));
        let mut place = Instance { id, bindings: open.collect() };
        place.bindings.extend(known.clone());
        if owner.kind == "implementation" {
            let target = self.type_in(&place, owner.target())?;
            place.bindings.insert("Self".into(), target);
        }
        Ok(place)
    }

    /// Returns the type that is written at a place.
    pub fn type_in(&self, place: &Instance, tree: &Node) -> Done<Type> {
        let part = |at: usize| self.type_in(place, &tree.parts[at]);
        match (tree.kind, tree.parts.as_slice()) {
            ("path", segments) => self.named_type(place, segments),
            ("tuple", parts) => {
                let parts = parts.iter().map(|it| self.type_in(place, it));
                Ok(Type::Of(Form::Tuple, parts.collect::<Done<_>>()?))
            }
            ("reference", [mutable @ .., Node { kind: "list", parts, .. }]) if parts.len() == 1 => {
                Ok(Type::slice(self.type_in(place, &parts[0])?, !mutable.is_empty()))
            }
            ("reference", [_]) => part(0),
            ("reference", [_, _]) => Ok(Type::pointer(part(1)?)),
            ("list", [_, Node { kind: "integer", text, .. }]) => {
                Ok(Type::array(part(0)?, number(text).unwrap_or_default()))
            }
            _ => Err(self.unknown_type(place, tree)),
        }
    }

    fn unknown_type(&self, place: &Instance, tree: &Node) -> Fault {
        self.fault(place.id, tree.span, "C: this type has no rule")
    }

    /// Returns the type that the names of a path, or the first of them, stand for at a place.
    pub fn named_type(&self, place: &Instance, path: &[Node]) -> Done<Type> {
        let names: Vec<&str> = path.iter().map(Node::name).collect();
        if let ([_], Some(known)) = (&names[..], place.bindings.get(names[0])) {
            return Ok(known.clone());
        }
        let unknown = || self.unknown_type(place, &path[0]);
        let found = self.scopes.resolve(place.id.module, &names).ok_or_else(unknown)?;
        let arguments = path[path.len() - 1].last().parts.iter();
        let arguments = arguments.map(|it| self.type_in(place, it)).collect::<Done<Vec<Type>>>()?;
        match found.definition {
            Definition::Foreign(name) => foreign_type(&name, arguments).ok_or_else(unknown),
            Definition::Item(id) if found.used == path.len() => match self.item(id).kind {
                "struct" | "enum" => Ok(Type::Of(Form::Item(id), arguments)),
                "alias" => self.type_in(&self.place_of(id, &arguments)?, self.item(id).last()),
                _ => Err(unknown()),
            },
            _ => Err(unknown()),
        }
    }

    // Returns the place in an item for what its parameters stand for.
    fn place_of(&self, id: Id, arguments: &[Type]) -> Done<Instance> {
        let known = self.parameters(id).into_iter().zip(arguments.iter().cloned()).collect();
        self.place(id, &known)
    }

    /// Returns the type parameters of an item.
    pub fn parameters(&self, id: Id) -> Vec<String> {
        self.item(id).generics("generic.type").map(|it| it.name().to_string()).collect()
    }

    /// Returns the variants of a type. A struct or a tuple has one.
    pub fn variants(&self, of: &Type) -> Done<Vec<Variant>> {
        let variant = |name: &str, fields: &[(&str, &Type)]| {
            let fields = fields.iter().map(|(name, of)| (name.to_string(), (*of).clone()));
            Variant { name: name.into(), fields: fields.collect() }
        };
        let Type::Of(form, parts) = of else { return Ok(Vec::new()) };
        Ok(match *form {
            Form::Option => vec![variant("some", &[("value", &parts[0])]), variant("none", &[])],
            Form::Result => {
                let ok = variant("ok", &[("value", &parts[0])]);
                vec![ok, variant("err", &[("error", &parts[1])])]
            }
            Form::Tuple => {
                let names = (0..parts.len()).map(|it| it.to_string());
                vec![Variant { name: "new".into(), fields: names.zip(parts.clone()).collect() }]
            }
            Form::Slice { is_mutable } => {
                let array = Type::array(parts[0].clone(), 0);
                let at = if is_mutable { Type::pointer(array) } else { array };
                vec![variant("of", &[("at", &at), ("len", &Type::SIZE)])]
            }
            Form::Array { .. } | Form::Pointer => Vec::new(),
            Form::Item(id) => {
                let place = self.place_of(id, parts)?;
                let item = self.item(id);
                let variants = item.all("variant").map(|it| self.variant(&place, it.name(), it));
                match item.kind {
                    "struct" => vec![self.variant(&place, "new", item)?],
                    _ => variants.collect::<Done<_>>()?,
                }
            }
        })
    }

    // Returns the fields of a struct or a variant. Without names, they are called `0`, `1` and so on.
    fn variant(&self, place: &Instance, name: &str, tree: &Node) -> Done<Variant> {
        let is_field = |it: &&Node| has("field path reference tuple list", it.kind);
        let field = |(number, it): (usize, &Node)| match it.kind {
            "field" => Ok((it.name().to_string(), self.type_in(place, it.last())?)),
            _ => Ok((number.to_string(), self.type_in(place, it)?)),
        };
        let fields = tree.parts.iter().filter(is_field).enumerate().map(field);
        Ok(Variant { name: name.into(), fields: fields.collect::<Done<_>>()? })
    }

    /// Says whether values of a type have no bytes.
    pub fn is_zero(&self, of: &Type) -> bool {
        match of {
            Type::Of(Form::Pointer, parts) => self.is_zero(&parts[0]),
            Type::Of(Form::Tuple | Form::Item(_), _) => match self.variants(of).as_deref() {
                Ok([only]) => only.fields.iter().all(|(_, of)| self.is_zero(of)),
                _ => false,
            },
            _ => false,
        }
    }

    /// Returns a type without the arguments of structs, of which their values hold nothing. A field that is of a
    /// parameter has no type in C.
    pub fn erased(&self, of: &Type) -> Type {
        match of {
            Type::Of(form @ Form::Item(_), _) => Type::Of(*form, Vec::new()),
            _ => of.map(&mut |part| self.erased(part)),
        }
    }

    /// Finds a member of a type by its name: one of its own, or one that a trait of it provides.
    pub fn member(&self, of: &Type, name: &str) -> Option<Instance> {
        let all = self.implementations.iter();
        let fitting = all.filter_map(|it| Some((it, matched(&it.target, of)?)));
        let own = |(it, bindings): (&Implementation, Bindings)| {
            Some(Instance { id: self.position(it.id, name)?, bindings })
        };
        // A type that has a trait has the traits before it, too.
        let provided = |(it, _): (&Implementation, _)| {
            let id = self.position(it.of_trait?, name)?;
            Some(Instance { id, bindings: Bindings::from([("Self".to_string(), of.clone())]) })
        };
        fitting.clone().find_map(own).or_else(|| fitting.clone().find_map(provided))
    }

    // Finds a function or a constant among the members of an item.
    fn position(&self, id: Id, name: &str) -> Option<Id> {
        let is_member = |it: &Node| it.name() == name && matches!(it.kind, "function" | "constant");
        let member = self.item(id).members().iter().position(is_member)?;
        Some(Id { member: Some(member), ..id })
    }

    /// Says why an item is refused.
    pub fn fault_of(&self, id: Id, reason: impl std::fmt::Display) -> Fault {
        self.fault(id, self.item(id).span, format!("C: {reason}"))
    }

    pub fn fault(&self, id: Id, span: Span, reason: impl Into<String>) -> Fault {
        self.module(id).source.fault(span, reason)
    }
}

// Returns what the parameters of an `impl` stand for if it is for a type. An `impl` for each type with some trait is
// for none: only engines that read byte by byte have one.
fn matched(target: &Type, of: &Type) -> Option<Bindings> {
    let mut bindings = Bindings::new();
    if let (Type::Of(_, parts), Type::Of(_, known)) = (target, of) {
        for (part, known) in parts.iter().zip(known) {
            if let Type::Parameter(name) = part {
                bindings.insert(name.clone(), known.clone());
            }
        }
    }
    (target.with(&bindings) == *of).then_some(bindings)
}

/// Returns a type of integers by its name.
pub fn integer(name: &str) -> Option<Type> {
    let known = INTEGERS.iter().find(|it| **it == name && name != "isize");
    known.map(|name| Type::Integer(Integer(name)))
}

fn foreign_type(name: &str, arguments: Vec<Type>) -> Option<Type> {
    match (name, arguments.len()) {
        ("bool", 0) => Some(Type::Boolean),
        ("Option", 1) => Some(Type::Of(Form::Option, arguments)),
        ("Result", 2) => Some(Type::Of(Form::Result, arguments)),
        ("std::marker::PhantomData", _) => Some(Type::UNIT),
        _ => integer(name),
    }
}
