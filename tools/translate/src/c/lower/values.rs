//! Expressions as values. Operands are evaluated from left to right: what a later one could change is held first. The
//! types of variables are found by unification, and what has no rule here is refused.

use super::*;
use crate::lexer::{bytes, number};
use crate::tree::{is_comparison, is_shift};

impl Lowering<'_, '_> {
    /// Evaluates an expression without branches to a value.
    pub fn value(&mut self, tree: &Node) -> Done<Term> {
        match (tree.kind, tree.parts.as_slice()) {
            ("path", _) => self.path(tree),
            ("call", [path, arguments @ ..]) => self.call(path, arguments),
            ("method", _) => self.method(tree),
            ("binary", [first, sign, second]) if ["&&", "||"].contains(&sign.text.as_str()) => {
                let first = self.term(first, &Type::Boolean)?;
                let second = self.alone("what may not run", second, &Type::Boolean)?;
                Ok(self.test(operator(sign), first, second))
            }
            ("try", [value]) => {
                let found = self.any(value)?;
                let is_option = matches!(self.known(&found.of), Type::Of(Form::Option, _));
                self.defined(if is_option { "Option?" } else { "Result?" }, vec![found], &[])
            }
            ("matches", [value, pattern]) => Ok(self.fits(value, pattern)?.test),
            ("boolean" | "byte" | "text" | "integer", _) => Ok(self.literal(tree)),
            _ => self.operation(tree),
        }
    }

    // Returns the value of a literal, which the parser has checked.
    fn literal(&mut self, tree: &Node) -> Term {
        let (text, bytes) = (tree.text.as_str(), bytes(&tree.text).unwrap_or_default());
        let (kind, of) = match tree.kind {
            "boolean" => (Kind::Boolean(text == "true"), Type::Boolean),
            "byte" => (Kind::Byte(bytes[0]), Type::BYTE),
            "text" => (Kind::Text(bytes), Type::slice(Type::BYTE, false)),
            _ => {
                let digits = text.strip_prefix("0x").unwrap_or_default();
                let hexadecimal = digits.chars().filter(|it| *it != '_').count();
                let value = number(text).unwrap_or_default();
                (Kind::Number { value, hexadecimal }, self.fresh(true))
            }
        };
        self.make(kind, Vec::new(), of)
    }

    // Evaluates an expression that is made of the values of its parts.
    fn operation(&mut self, tree: &Node) -> Done<Term> {
        match (tree.kind, tree.parts.as_slice()) {
            ("tuple", parts) => {
                let terms = self.operands(None, parts)?;
                let of = Type::Of(Form::Tuple, terms.iter().map(|it| it.of.clone()).collect());
                Ok(self.make(Kind::Make(PLAIN), terms, of))
            }
            ("list", parts) => {
                let element = self.fresh(false);
                let terms = self.operands(None, parts)?;
                let terms = self.coerce_all(terms, &vec![element.clone(); parts.len()])?;
                Ok(self.make(Kind::Elements, terms, Type::array(element, parts.len() as u128)))
            }
            ("struct", [path, fields @ ..]) => self.structure(path, fields),
            ("negation", [sign, operand]) => {
                let term = self.any(operand)?;
                match (sign.text.as_str(), self.known(&term.of)) {
                    ("*", _) => Ok(self.followed(term)),
                    ("!", Type::Boolean) => Ok(term.negated()),
                    ("-", of) => Ok(self.make(Kind::Small("negate".into()), vec![term], of)),
                    _ => self.refuse("this operation has no rule"),
                }
            }
            ("reference", [mutable @ .., operand]) => self.borrow(!mutable.is_empty(), operand),
            ("binary", [left, sign, right]) => self.binary(operator(sign), [left, right]),
            ("cast", [value, name]) => {
                let value = self.any(value)?;
                let of = self.expect(integer(&name.text), "this type has no rule")?;
                Ok(self.make(Kind::Cast, vec![value], of))
            }
            ("member_of", [receiver, name]) => self.field(receiver, &name.text),
            ("index" | "part", parts) => {
                let terms = self.operands(None, parts)?;
                let types = [terms[0].of.clone(), Type::SIZE, Type::SIZE];
                let mut terms = self.coerce_all(terms, &types)?;
                match tree.rule.strip_prefix("part.") {
                    Some(name) => self.part(name, terms),
                    None => self.element(terms.remove(0), terms.remove(0), Kind::At),
                }
            }
            _ => self.refuse("this form has no rule"),
        }
    }

    /// Evaluates operands from left to right, behind a receiver. Each is held in a variable if it changes something or
    /// may be changed before the last is evaluated.
    pub fn operands<'t>(
        &mut self,
        receiver: Option<Term>,
        operands: impl IntoIterator<Item = &'t Node>,
    ) -> Done<Vec<Term>> {
        let mut terms = Vec::from_iter(receiver);
        for operand in operands {
            let (statements, term) = self.apart(|it| it.any(operand))?;
            let changes = term.has_effect() || !statements.is_empty();
            for earlier in &mut terms {
                if earlier.has_effect() || changes && !self.is_constant(earlier) {
                    *earlier = self.hold(earlier.clone(), "before", false);
                }
            }
            self.extend(statements);
            terms.push(term);
        }
        Ok(terms)
    }

    /// Makes terms ones of the wanted types.
    pub fn coerce_all(&mut self, terms: Vec<Term>, types: &[Type]) -> Done<Vec<Term>> {
        terms.into_iter().zip(types).map(|(term, of)| self.coerce(term, of)).collect()
    }

    /// Says whether nothing that happens later changes what a term is.
    pub fn is_constant(&self, term: &Term) -> bool {
        let may_change = |it: &Term| match it.kind {
            Kind::Local(local) => self.locals[local].is_mutable,
            Kind::Follow | Kind::Elements => true,
            Kind::At | Kind::Element => self.known(&it.parts[0].of).can_write(),
            _ => false,
        };
        // A variable stays where it is.
        let is_place = term.kind == Kind::Address && matches!(term.parts[0].kind, Kind::Local(_));
        is_place || !term.has_effect() && !term.any(&may_change)
    }

    /// Returns what a term refers to.
    pub fn followed(&self, term: Term) -> Term {
        match self.known(&term.of) {
            Type::Of(Form::Pointer, parts) => {
                let target = parts[0].clone();
                self.make(Kind::Follow, vec![term], target)
            }
            _ => term,
        }
    }

    /// Returns the type that a path names. Arguments may be left out.
    pub fn named_type(&mut self, path: &[Node]) -> Done<Type> {
        let mut of = self.world.named_type(&self.place, path)?;
        if let Type::Of(Form::Item(id), arguments) = &mut of {
            while arguments.len() < self.world.parameters(*id).len() {
                arguments.push(self.fresh(false));
            }
        }
        Ok(of)
    }

    // Makes a struct of the values of fields, and maybe of a base that gives the others.
    fn structure<'t>(&mut self, path: &Node, given: &'t [Node]) -> Done<Term> {
        let of = self.named_type(&path.parts)?;
        let fields = self.fields_of(&of, PLAIN)?;
        let named = given.iter().filter(|it| it.kind == "given");
        // A variable may have the name of the field.
        let owner = |it: &'t Node| if it.has("name") { it } else { &it.last().parts[0] };
        let names: Vec<&str> = named.map(|it| owner(it).name()).collect();
        let is_field = |name: &&str| fields.iter().any(|(own, _)| own == name);
        self.require(names.iter().all(is_field), "no such field")?;
        let values = given.iter().map(|it| if it.kind == "given" { it.last() } else { it });
        let mut terms = self.operands(None, values)?;
        let base = match terms.split_off(names.len()).pop() {
            None => Vec::new(),
            Some(Term { kind: Kind::Constant(id), .. }) => super::constant(self.world, id)?.parts,
            Some(base) => {
                let base = self.keep(base, "base");
                self.parts(&base, PLAIN)?.1
            }
        };
        let mut parts = Vec::new();
        for (number, (name, of)) in fields.iter().enumerate() {
            parts.push(match names.iter().position(|given| given == name) {
                Some(at) => self.coerce(terms[at].clone(), of)?,
                None => self.expect(base.get(number).cloned(), "a field without a value")?,
            });
        }
        Ok(self.make(Kind::Make(PLAIN), parts, of))
    }

    fn borrow(&mut self, is_mutable: bool, operand: &Node) -> Done<Term> {
        let term = self.any(operand)?;
        Ok(match (self.known(&term.of), &term.kind) {
            (Type::Of(Form::Slice { is_mutable: true }, parts), _) if !is_mutable => {
                let of = Type::slice(parts[0].clone(), false);
                let all = self.keep(term, "all");
                let parts = self.parts(&all, PLAIN)?.1;
                self.make(Kind::Make(PLAIN), parts, of)
            }
            (_, Kind::Elements) if !is_mutable => self.hold(term, "bytes", false),
            (of, _) if is_mutable && !of.can_write() => {
                self.make(Kind::Address, vec![term], Type::pointer(of))
            }
            _ => term,
        })
    }

    fn binary(&mut self, operator: &'static str, operands: [&Node; 2]) -> Done<Term> {
        let mut terms = self.operands(None, operands)?;
        let right = self.followed(terms.remove(1));
        let left = self.followed(terms.remove(0));
        if !is_shift(operator) {
            self.unify(&left.of, &right.of)?;
        }
        if is_comparison(operator) {
            return Ok(self.test(operator, left, right));
        }
        let of = left.of.clone();
        Ok(self.make(Kind::Binary(operator), vec![left, right], of))
    }

    fn field(&mut self, receiver: &Node, name: &str) -> Done<Term> {
        let receiver = self.any(receiver)?;
        let receiver = self.followed(receiver);
        let fields = self.fields_of(&receiver.of, PLAIN)?;
        let place = fields.iter().position(|(own, _)| own == name);
        let place = self.expect(place, "no such field")?;
        Ok(self.make(Kind::Field(PLAIN, place), vec![receiver], fields[place].1.clone()))
    }

    /// Returns the element of a slice or an array.
    pub fn element(&mut self, outer: Term, at: Term, kind: Kind) -> Done<Term> {
        let outer = self.followed(outer);
        match self.known(&outer.of) {
            Type::Of(Form::Slice { .. } | Form::Array { .. }, parts) => {
                Ok(self.make(kind, vec![outer, at], parts[0].clone()))
            }
            _ => self.refuse("an element of an unknown type"),
        }
    }

    /// Returns a part of a slice, by a function and its arguments.
    pub fn part(&mut self, name: &'static str, terms: Vec<Term>) -> Done<Term> {
        let of = self.known(&terms[0].of);
        self.require(of.is_slice(), "a part of what is no slice")?;
        Ok(self.make(Kind::Part(name), terms, of))
    }

    /// Returns a type that is not known yet.
    pub fn fresh(&mut self, is_integer: bool) -> Type {
        self.variables.push(None);
        Type::Variable { number: self.variables.len() - 1, is_integer }
    }

    /// Returns what is known of a type, but of its parts only what they were made with.
    pub fn known(&self, of: &Type) -> Type {
        match of {
            Type::Variable { number, .. } => {
                self.variables[*number].as_ref().map_or(of.clone(), |found| self.known(found))
            }
            _ => of.clone(),
        }
    }

    /// Returns a type with all that is known. Integers that nothing decides are `i32`, as in Rust.
    pub fn full(&self, of: &Type) -> Type {
        match self.known(of) {
            Type::Variable { is_integer: true, .. } => Type::Integer(Integer("i32")),
            found => found.map(&mut |part| self.full(part)),
        }
    }

    /// Makes two types the same.
    pub fn unify(&mut self, left: &Type, right: &Type) -> Done<()> {
        match (self.known(left), self.known(right)) {
            (left, right) if left == right => Ok(()),
            (Type::Variable { number, is_integer: false }, other)
            | (other, Type::Variable { number, is_integer: false })
            | (Type::Variable { number, .. }, other @ (Type::Integer(_) | Type::Variable { .. }))
            | (other @ Type::Integer(_), Type::Variable { number, .. }) => {
                self.variables[number] = Some(other);
                Ok(())
            }
            (Type::Of(form, left), Type::Of(other, right))
                if form == other && left.len() == right.len() =>
            {
                left.iter().zip(&right).try_for_each(|(left, right)| self.unify(left, right))
            }
            (left, right) => {
                let (left, right) = (self.full(&left), self.full(&right));
                self.refuse(format!("{left:?} in place of {right:?}"))
            }
        }
    }

    /// Makes a term one of the wanted type: arrays become slices, and what may be written is shared.
    pub fn coerce(&mut self, term: Term, wanted: &Type) -> Done<Term> {
        let (of, wanted) = (self.known(&term.of), self.known(wanted));
        let target = self.known(of.target());
        match (&target, &wanted) {
            (
                Type::Of(Form::Array { length }, own),
                Type::Of(Form::Slice { is_mutable }, parts),
            ) if *is_mutable == of.can_write() => {
                self.unify(&own[0], &parts[0])?;
                Ok(self.make(Kind::Make(PLAIN), vec![term, self.size(*length)], wanted))
            }
            // A receiver that a method changes.
            (_, Type::Of(Form::Pointer, parts)) if of == target => {
                self.unify(&of, &parts[0])?;
                Ok(self.make(Kind::Address, vec![term], wanted))
            }
            (_, Type::Variable { .. } | Type::Of(Form::Pointer, _)) => {
                self.unify(&of, &wanted)?;
                Ok(term)
            }
            _ => {
                self.unify(&target, &wanted)?;
                Ok(self.followed(term))
            }
        }
    }

    /// Ends a term, from its last part to the first, as variables that nothing reads behind them are removed.
    pub fn end(&mut self, term: &mut Term, used: &mut Vec<Kind>) -> Done<()> {
        for at in (0..term.parts.len()).rev() {
            let part = &mut term.parts[at];
            match part.kind {
                Kind::Declare(local)
                    if !part.has_effect() && !used.contains(&Kind::Local(local)) =>
                {
                    drop(term.parts.remove(at));
                }
                _ => self.end(part, used)?,
            }
        }
        used.push(term.kind.clone());
        self.settle(term)
    }

    /// Returns a type with all that matters of it.
    pub fn settled(&mut self, of: &Type) -> Done<Type> {
        let found = self.world.erased(&self.full(of));
        match found.parameter() {
            Some(name) => self.need(name),
            None => Ok(found),
        }
    }

    // Gives a term its type, and to a call its function, which gets the constants that it needs.
    fn settle(&mut self, term: &mut Term) -> Done<()> {
        term.of = self.settled(&term.of)?;
        let Kind::Call(callee) = &mut term.kind else { return Ok(()) };
        callee.bindings.values_mut().for_each(|of| *of = self.full(of));
        let own = callee.bindings.clone();
        callee.bindings.values_mut().for_each(|of| *of = of.with(&self.open));
        *callee = self.instances.add(callee)?;
        if let Some(name) = callee.bindings.keys().find_map(|name| own[name].parameter()) {
            return self.need(name);
        }
        // What it gets for parameters that do not matter.
        let constants = self.instances.get(callee).map(|it| it.constants.clone());
        let constants = constants.unwrap_or_default().into_keys().map(|(name, id)| {
            let constant = self.world.name(id);
            self.constant_of(&own[&name], constant)
        });
        let constants = constants.collect::<Done<Vec<Term>>>()?;
        term.parts.splice(0..0, constants);
        Ok(())
    }
}
