//! Patterns as conditions and variables.

use super::calls::Named;
use super::*;
use std::cmp::Ordering;

/// A name of a pattern, whether it may be changed, and the part that it stands for.
pub type Binding = (String, bool, Term);

/// Whether a value fits a pattern, and what is bound then.
pub struct Fit {
    pub test: Term,
    pub bindings: Vec<Binding>,
}

impl Lowering<'_, '_> {
    /// Returns when a value fits a pattern.
    pub fn fit(&mut self, pattern: &Node, value: &Term) -> Done<Fit> {
        self.at = pattern.span;
        let parts = pattern.parts.as_slice();
        let (patterns, (test, values)) = match (pattern.kind, parts) {
            ("binding", _) => {
                let inner = inner(pattern);
                (inner, (self.boolean(true), vec![value.clone(); inner.len()]))
            }
            ("tuple", _) => (parts, self.parts(value, PLAIN)?),
            ("list", _) => (parts, self.elements(parts, value)?),
            ("path", _) => (&[][..], self.variant(pattern, value)?),
            ("call", [path, fields @ ..]) => (fields, self.variant(path, value)?),
            _ => (&[][..], (self.test_of(pattern, value)?, Vec::new())),
        };
        self.require(patterns.len() == values.len(), "a pattern with another number of parts")?;
        let mut fit = Fit { test, bindings: Vec::new() };
        for (pattern, value) in patterns.iter().zip(&values) {
            let inner = self.fit(pattern, value)?;
            fit.test = self.test("&&", fit.test, inner.test);
            fit.bindings.extend(inner.bindings);
        }
        if pattern.kind == "binding" {
            fit.bindings.push((pattern.name().into(), pattern.has("mutable"), value.clone()));
        }
        Ok(fit)
    }

    // Returns when a value fits a pattern that has no parts.
    fn test_of(&mut self, pattern: &Node, value: &Term) -> Done<Term> {
        match (pattern.kind, pattern.parts.as_slice()) {
            ("wildcard" | "rest", _) => Ok(self.boolean(true)),
            ("boolean", _) if pattern.text == "true" => Ok(value.clone()),
            ("boolean", _) => Ok(value.clone().negated()),
            ("integer" | "byte", _) => {
                let literal = self.term(pattern, &value.of)?;
                Ok(self.test("==", value.clone(), literal))
            }
            ("range", [low, high]) => {
                let (low, high) = (self.term(low, &value.of)?, self.term(high, &value.of)?);
                let is_below = self.test("<=", value.clone(), high);
                // No number is below the first 0, and compilers warn of such a test.
                if low.number() == Some(0) {
                    return Ok(is_below);
                }
                Ok(self.test("&&", self.test("<=", low, value.clone()), is_below))
            }
            ("either", patterns) => {
                let mut test = self.boolean(false);
                for pattern in patterns {
                    let fit = self.fit(pattern, value)?;
                    self.require(fit.bindings.is_empty(), "alternatives that bind names")?;
                    test = self.test("||", test, fit.test);
                }
                Ok(test)
            }
            _ => self.refuse("this pattern has no rule"),
        }
    }

    // Returns whether a value is of the variant that a path names, and its fields then.
    fn variant(&mut self, path: &Node, value: &Term) -> Done<(Term, Vec<Term>)> {
        let Named::Variant(of, variant) = self.named(path)? else {
            return self.refuse("this pattern has no rule");
        };
        let value = self.followed(value.clone());
        self.unify(&of, &value.of)?;
        self.parts(&value, variant)
    }

    // Returns whether a slice is as long as its patterns ask, and what each of them is for.
    fn elements(&mut self, patterns: &[Node], slice: &Term) -> Done<(Term, Vec<Term>)> {
        let is_slice = self.known(&slice.of).is_slice();
        self.require(is_slice, "a slice pattern for what is no slice")?;
        let count = patterns.len();
        let rest = patterns.iter().position(is_rest).unwrap_or(count);
        let (operator, fixed) = if rest < count { (">=", count - 1) } else { ("==", count) };
        let test = self.test(operator, self.length(slice), self.size(fixed as u128));
        let mut parts = Vec::new();
        for at in 0..count {
            let from = self.size(at as u128);
            let after = count - at - usize::from(at == rest);
            let to = vec![self.length(slice), self.size(after as u128)];
            let to = self.make(Kind::Binary("-"), to, Type::SIZE);
            parts.push(match at.cmp(&rest) {
                Ordering::Less => self.element(slice.clone(), from, Kind::Element)?,
                Ordering::Greater => self.element(slice.clone(), to, Kind::Element)?,
                Ordering::Equal if after == 0 => self.part("from", vec![slice.clone(), from])?,
                Ordering::Equal if at == 0 => self.part("to", vec![slice.clone(), to])?,
                Ordering::Equal => return self.refuse("a rest between elements"),
            });
        }
        Ok((test, parts))
    }

    /// Returns the fields of a variant of a type.
    pub fn fields_of(&self, of: &Type, variant: usize) -> Done<Vec<(String, Type)>> {
        let variant = self.world.variants(&self.known(of))?.into_iter().nth(variant);
        Ok(self.expect(variant, "this type has no such fields")?.fields)
    }

    /// Returns whether a value is of a variant, and its fields then.
    pub fn parts(&mut self, value: &Term, variant: usize) -> Done<(Term, Vec<Term>)> {
        if value.is_tuple() {
            return Ok((self.boolean(true), value.parts.clone()));
        }
        if value.is_maybe() {
            let test = value.parts[0].clone();
            let test = if variant == SOME { test } else { test.negated() };
            return Ok((test, value.parts[1 + variant].parts.clone()));
        }
        let fields = self.fields_of(&value.of, variant)?.into_iter().enumerate();
        let field = |(at, (_, of))| self.make(Kind::Field(variant, at), vec![value.clone()], of);
        let fields = fields.map(field).collect();
        let test = match self.world.variants(&self.known(&value.of))?.len() {
            1 => self.boolean(true),
            _ => self.make(Kind::Is(variant), vec![value.clone()], Type::Boolean),
        };
        Ok((test, fields))
    }

    /// Declares the variables of a pattern that every value fits, or all others go to a block that leaves.
    pub fn destructure(
        &mut self,
        pattern: &Node,
        value: Term,
        otherwise: Option<&Node>,
    ) -> Done<()> {
        self.at = pattern.span;
        if pattern.kind == "tuple" && value.is_tuple() && pattern.parts.len() == value.parts.len() {
            let mut pairs = pattern.parts.iter().zip(value.parts);
            return pairs.try_for_each(|(it, part)| self.destructure(it, part, None));
        }
        let is_name = pattern.kind == "binding" && inner(pattern).is_empty();
        let value = if is_name { value } else { self.keep(value, "found") };
        let fit = self.fit(pattern, &value)?;
        match otherwise {
            Some(block) => {
                let (leaving, _) = self.apart(|it| it.evaluate(block, Target::Nothing))?;
                let leaving = self.when(fit.test.negated(), leaving, Vec::new());
                self.extend(vec![leaving]);
            }
            None => {
                let fits = fit.test.kind == Kind::Boolean(true);
                self.require(fits, "a pattern that not every value fits")?;
            }
        }
        self.bind_all(fit.bindings, |_, _| false);
        Ok(())
    }

    /// Lets the names of a pattern stand for its parts where they may, or else for variables.
    pub fn bind_all(&mut self, bindings: Vec<Binding>, may_stand: impl Fn(&Self, &Term) -> bool) {
        for (name, is_mutable, value) in bindings {
            let stands = may_stand(self, &value) && !is_mutable;
            let value = if stands { value } else { self.hold(value, &name, is_mutable) };
            self.names.push((name, value));
        }
    }
}

fn is_rest(pattern: &Node) -> bool {
    pattern.kind == "rest" || pattern.kind == "binding" && inner(pattern).iter().any(is_rest)
}

// Returns the pattern behind a name and `@`, if there is one.
fn inner(binding: &Node) -> &[Node] {
    &binding.parts[usize::from(binding.has("mutable")) + 1..]
}
