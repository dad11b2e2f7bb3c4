//! Paths, calls and methods. Calls of laws, which return nothing and change nothing, vanish.

use super::*;
use crate::lexer::number;
use crate::resolve::Definition;
use crate::std_names::has;

/// What a path names.
pub enum Named<'p> {
    // A variant of a type, by its number.
    Variant(Type, usize),
    // A member of a type.
    Member(Type, &'p str),
    Item(Id),
    Unknown,
}

/// Forms that are blocks: a name, what the operands are called, and the block. Capital names stand for trees: `COUNT` for
/// the number that a call writes. Names with `_` hide none of theirs. What only these blocks call are functions of the
/// prelude, and bytes and elements of a slice.
const BLOCKS: &str = "\
first_chunk all = { if all.len() >= COUNT { Some(all.first_bytes::<COUNT>()) } else { None } }
last_chunk all = { if all.len() >= COUNT { Some(all.last_bytes::<COUNT>()) } else { None } }
split_first all = { match all { [first, rest @ ..] => Some((first, rest)), _ => None } }
split_at all at = { (&all[..at], &all[at..]) }
split_at_checked all at = { if at <= all.len() { Some((&all[..at], &all[at..])) } else { None } }
copy_from_slice to from = { let mut at = 0; while at < from.len() { to[at] = from[at]; at += 1; } }
checked_add left right = { if left.sum_fits(right) { Some(left + right) } else { None } }
checked_mul left right = { if left.product_fits(right) { Some(left * right) } else { None } }
ok found = { match found { Ok(value) => Some(value), Err(_) => None } }
Option? found = { match found { None => return None, Some(value) => value } }
Result? found = { match found { Err(error) => return Err(error), Ok(value) => value } }
for _all = { let mut _at = 0; while _at < _all.len() { let PATTERN = _all.element(_at); _at += 1; BODY } }
filter() _all = { let mut _count: usize = 0; for PATTERN in _all { if TEST { _count += 1; } } _count }
take_while() _all = { let mut _count: usize = 0; for PATTERN in _all { if !TEST { break; } _count += 1; } _count }";

impl Lowering<'_, '_> {
    /// Returns what a path names that is no variable.
    pub fn named<'p>(&mut self, path: &'p Node) -> Done<Named<'p>> {
        let (name, before) = (path.last().name(), &path.parts[..path.parts.len() - 1]);
        let found = self.world.scopes.resolve(self.place.id.module, &path.names());
        let found = found.filter(|it| it.used > before.len());
        Ok(match found.map(|it| it.definition) {
            Some(Definition::Item(id)) => Named::Item(id),
            Some(Definition::Variant(id, variant)) => {
                Named::Variant(Type::Of(Form::Item(id), Vec::new()), variant)
            }
            Some(Definition::Foreign(name)) => {
                let (form, count, variant) = match name.as_str() {
                    "None" => (Form::Option, 1, NONE),
                    "Some" => (Form::Option, 1, SOME),
                    "Ok" => (Form::Result, 2, OK),
                    "Err" => (Form::Result, 2, ERR),
                    "std::marker::PhantomData" => (Form::Tuple, 0, PLAIN),
                    _ => return Ok(Named::Unknown),
                };
                let parts = (0..count).map(|_| self.fresh(false)).collect();
                Named::Variant(Type::Of(form, parts), variant)
            }
            None if !before.is_empty() => Named::Member(self.named_type(before)?, name),
            _ => Named::Unknown,
        })
    }

    /// Evaluates a path: a variable, a constant or a variant without fields.
    pub fn path(&mut self, path: &Node) -> Done<Term> {
        let names = path.names();
        if let Some((_, value)) = self.names.iter().rev().find(|(name, _)| names == [name]) {
            return Ok(value.clone());
        }
        match self.named(path)? {
            Named::Variant(of, variant) => Ok(self.make(Kind::Make(variant), Vec::new(), of)),
            Named::Member(owner, name) => self.constant_of(&owner, name),
            Named::Item(id) if self.world.item(id).kind == "constant" => {
                let of = super::constant(self.world, id)?.of;
                Ok(self.make(Kind::Constant(id), Vec::new(), of))
            }
            _ => self.refuse("this name has no rule"),
        }
    }

    /// Returns a constant of a type. For a parameter that stands for itself, it is one that the function gets.
    pub fn constant_of(&mut self, owner: &Type, name: &str) -> Done<Term> {
        if let (Type::Integer(own), "MIN" | "MAX") = (owner, name) {
            let greatest = u128::MAX >> (128 - own.bits() + u32::from(own.is_signed()));
            let least = if own.is_signed() { greatest + 1 } else { 0 };
            let value = if name == "MAX" { greatest } else { least };
            return Ok(self.decimal(value, owner.clone()));
        }
        let found = self.world.member(&owner.with(&self.open), name);
        let found = found.filter(|it| self.world.item(it.id).kind == "constant");
        let id = self.expect(found, "this name has no rule")?.id;
        let constant = super::constant(self.world, id)?;
        let Type::Parameter(parameter) = owner else {
            return Ok(Term { span: self.at, ..constant });
        };
        let key = (parameter.clone(), id);
        if let Some(local) = self.constants.get(&key) {
            return Ok(self.local(*local));
        }
        let prefix = if constant.of == Type::Boolean { "is_" } else { "" };
        let local = self.variable(&format!("{prefix}{}", name.to_lowercase()), constant.of, false);
        self.constants.insert(key, local);
        Ok(self.local(local))
    }

    /// Evaluates a call of what a path names.
    pub fn call(&mut self, path: &Node, arguments: &[Node]) -> Done<Term> {
        if let ([owner, name @ ("from" | "from_le_bytes")], [argument]) =
            (path.names().as_slice(), arguments)
        {
            if let Some(Type::Integer(of)) = integer(owner) {
                let value = self.any(argument)?;
                if *name == "from" {
                    return Ok(self.make(Kind::Cast, vec![value], Type::Integer(of)));
                }
                self.unify(&value.of, &Type::array(Type::BYTE, u128::from(of.bits()) / 8))?;
                return Ok(self.make(Kind::Small("load".into()), vec![value], Type::Integer(of)));
            }
        }
        if let Named::Variant(of, variant) = self.named(path)? {
            let fields = self.fields_of(&of, variant)?.into_iter().map(|(_, of)| of);
            let fields: Vec<Type> = fields.collect();
            self.require(fields.len() == arguments.len(), "another number of fields")?;
            let terms = self.operands(None, arguments)?;
            let terms = self.coerce_all(terms, &fields)?;
            return Ok(self.make(Kind::Make(variant), terms, of));
        }
        let callee = self.callee(path)?;
        self.call_of(callee, path.last().last(), None, arguments)
    }

    /// Returns the function that a path names.
    pub fn callee(&mut self, path: &Node) -> Done<Instance> {
        match self.named(path)? {
            Named::Member(owner, name) => self.member(&owner, name),
            Named::Item(id) => Ok(Instance { id, bindings: Bindings::new() }),
            _ => self.refuse("this function has no rule"),
        }
    }

    /// Finds a function of a type, which matters then.
    pub fn member(&mut self, of: &Type, name: &str) -> Done<Instance> {
        match self.full(of) {
            Type::Parameter(name) => self.need(&name),
            of => self.expect(self.world.member(&of, name), "this function has no rule"),
        }
    }

    // Adds the generic types that a call writes to a function, and returns its constants. Types that the call leaves
    // out are found later.
    fn choose(&mut self, callee: &mut Instance, arguments: &Node) -> Done<Vec<Term>> {
        let mut constants = Vec::new();
        let parameters = self.world.item(callee.id).get("generics").map(|it| &it.parts);
        for (number, parameter) in parameters.into_iter().flatten().enumerate() {
            match (parameter.rule, arguments.parts.get(number)) {
                ("generic.type", given) => {
                    let of = given.map(|of| self.world.type_in(&self.place, of)).transpose()?;
                    let of = of.unwrap_or_else(|| self.fresh(false));
                    callee.bindings.insert(parameter.name().into(), of);
                }
                (_, Some(given)) => constants.push(self.any(given)?),
                _ => return self.refuse("a generic constant that is not written"),
            }
        }
        Ok(constants)
    }

    /// Evaluates a call of a function.
    pub fn call_of(
        &mut self,
        mut callee: Instance,
        generics: &Node,
        receiver: Option<Term>,
        arguments: &[Node],
    ) -> Done<Term> {
        let mut terms = self.choose(&mut callee, generics)?;
        let (types, of) = signature(self.world, &callee)?;
        let count = terms.len() + usize::from(receiver.is_some()) + arguments.len();
        self.require(types.len() == count, "another number of arguments")?;
        let receiver = receiver.map(|it| self.coerce(it, &types[terms.len()])).transpose()?;
        terms.extend(self.operands(receiver, arguments)?);
        let mut terms = self.coerce_all(terms, &types)?;
        terms.retain(|it| it.has_effect() || !self.world.is_zero(&self.known(&it.of)));
        let term = self.make(Kind::Call(callee), terms, of);
        let is_law = term.of == Type::UNIT && !term.has_effect();
        Ok(if is_law { self.unit() } else { term })
    }

    /// Evaluates a call of a method.
    pub fn method(&mut self, call: &Node) -> Done<Term> {
        let [receiver, Node { text: name, .. }, generics, arguments @ ..] = &call.parts[..] else {
            return self.refuse("this method has no rule");
        };
        if name == "count" {
            return self.count(receiver);
        }
        let receiver = self.any(receiver)?;
        let target = self.followed(receiver.clone());
        let of = self.known(&target.of);
        let is_own = match &of {
            Type::Of(Form::Item(_), _) | Type::Parameter(_) => true,
            // A trait of ours may have methods of numbers.
            Type::Integer(_) => self.world.member(&of, name).is_some(),
            _ => false,
        };
        if is_own {
            let callee = self.member(&of, name)?;
            return self.call_of(callee, generics, Some(receiver), arguments);
        }
        let terms = self.operands(Some(target), arguments)?;
        match of {
            Type::Integer(own) => self.of_number(name, terms, own),
            Type::Of(Form::Slice { .. }, _) => self.of_slice(name, terms, generics.parts.first()),
            _ => self.defined(name, terms, &[]),
        }
    }

    /// Evaluates the block that stands for a form. Names stand for the operands in it, and for trees.
    pub fn defined(&mut self, name: &str, terms: Vec<Term>, trees: &[(&str, &Node)]) -> Done<Term> {
        let rows = BLOCKS.lines().filter_map(|row| row.split_once(" = "));
        let mut rows = rows.map(|(head, block)| (Vec::from_iter(head.split(' ')), block));
        let row = rows.find(|(head, _)| head[0] == name && head.len() == 1 + terms.len());
        let (head, block) = self.expect(row, "this method has no rule")?;
        let mut block = parse(&Source::new(Path::new("C"), block.into()), "block")?;
        block.iter_mut().for_each(|it| fill(it, trees, self.at));
        let outer = self.names.len();
        for (name, term) in head[1..].iter().zip(terms) {
            let kept = self.keep(term, name);
            self.names.push((name.to_string(), kept));
        }
        let value = self.block(&block, Target::Value);
        self.names.truncate(outer);
        value
    }

    fn of_number(&mut self, name: &str, terms: Vec<Term>, own: Integer) -> Done<Term> {
        let of = Type::Integer(own);
        let types = vec![of.clone(); terms.len()];
        let terms = self.coerce_all(terms, &types)?;
        let small = Kind::Small(name.into());
        let (kind, of) = match (name, terms.len()) {
            ("wrapping_add" | "wrapping_sub" | "wrapping_mul", 2) => (small, of),
            ("saturating_add" | "saturating_sub" | "min" | "max", 2) => (small, of),
            ("sum_fits" | "product_fits", 2) => (small, Type::Boolean),
            ("is_ascii_digit", 1) => (Kind::Small("is_digit".into()), Type::Boolean),
            ("trailing_zeros", 1) => (small, Type::Integer(Integer("u32"))),
            ("unsigned_abs", 1) => (small, integer(&own.0.replace('i', "u")).unwrap_or(of)),
            _ => return self.defined(name, terms, &[]),
        };
        Ok(self.make(kind, terms, of))
    }

    fn of_slice(&mut self, name: &str, terms: Vec<Term>, count: Option<&Node>) -> Done<Term> {
        match (name, terms.as_slice(), count.and_then(|it| number(&it.text))) {
            ("len", [slice], None) => Ok(self.length(slice)),
            ("is_empty", [slice], None) => Ok(self.test("==", self.length(slice), self.size(0))),
            // Only `for` and `count` take it.
            ("iter", [slice], None) => Ok(slice.clone()),
            ("element", [slice, at], None) => {
                self.element(slice.clone(), at.clone(), Kind::Element)
            }
            ("first_bytes", [_], Some(count)) => {
                Ok(self.make(Kind::Field(PLAIN, BYTES), terms, Type::array(Type::BYTE, count)))
            }
            ("last_bytes", [slice], Some(count)) => {
                let parts = vec![slice.clone(), self.size(count)];
                Ok(self.make(Kind::Last, parts, Type::array(Type::BYTE, count)))
            }
            _ => self.defined(name, terms, &Vec::from_iter(count.map(|it| ("COUNT", it)))),
        }
    }

    // `SLICE.iter().filter(..).count()` or with `take_while`.
    fn count(&mut self, steps: &Node) -> Done<Term> {
        match &steps.parts[..] {
            [slice, step, _, Node { kind: "closure", parts, .. }]
                if has("filter take_while", &step.text) =>
            {
                let slice = self.any(slice)?;
                let trees = [("PATTERN", &parts[0]), ("TEST", &parts[1])];
                self.defined(&format!("{}()", step.text), vec![slice], &trees)
            }
            _ => self.refuse("only `iter().filter(..)` and `take_while` are counted"),
        }
    }
}

// Gives all of a tree one place in a source, but other trees where their names are in it.
fn fill(tree: &mut Node, trees: &[(&str, &Node)], span: Span) {
    let given = trees.iter().find(|(name, _)| tree.kind == "path" && tree.names() == [*name]);
    if let Some((_, given)) = given {
        *tree = Node::clone(given);
    } else {
        tree.span = span;
        tree.parts.iter_mut().for_each(|it| fill(it, trees, span));
    }
}
