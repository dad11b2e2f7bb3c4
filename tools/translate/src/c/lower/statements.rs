//! Statements: blocks, variables, loops, assignments, and branches, which end in statements or a choice.

use super::patterns::Fit;
use super::*;

/// One way that an `if` or `match` goes on.
struct Branch {
    test: Term,
    statements: Vec<Term>,
    value: Term,
}

impl Lowering<'_, '_> {
    /// Evaluates an expression, and moves its value to the target.
    pub fn evaluate(&mut self, tree: &Node, target: Target) -> Done<Term> {
        let before = std::mem::replace(&mut self.at, tree.span);
        let mut value = self.unit();
        match (tree.kind, tree.parts.as_slice()) {
            ("group", [inner]) => value = self.evaluate(inner, target)?,
            ("block", statements) => value = self.block(statements, target)?,
            ("if", parts) => value = self.if_else(parts, target)?,
            ("match", [found, arms @ ..]) => value = self.match_arms(found, arms, target)?,
            ("return", [value]) => {
                self.evaluate(value, Target::Return)?;
            }
            ("break", _) => self.push(Kind::Break, Vec::new()),
            ("comments", _) => {
                let lines = tree.comments().into_iter().map(String::from);
                self.push(Kind::Comment(lines.collect()), Vec::new());
            }
            ("done", _) => {}
            ("let", [pattern, ..]) => {
                let annotation = tree.get("annotation");
                let of = annotation.map(|it| self.world.type_in(&self.place, it.last()));
                let of = of.transpose()?.unwrap_or_else(|| self.fresh(false));
                self.at = pattern.span;
                let found = self.term(&tree.parts[1 + usize::from(annotation.is_some())], &of)?;
                self.destructure(pattern, found, tree.get("otherwise").map(Node::last))?;
            }
            ("while" | "loop", [condition @ .., body]) => {
                let condition = match condition.first() {
                    Some(it) => self.alone("the condition of a loop", it, &Type::Boolean)?,
                    None => self.boolean(true),
                };
                let (body, _) = self.apart(|it| it.evaluate(body, Target::Nothing))?;
                self.push(Kind::While, vec![condition, self.block_of(body)]);
            }
            ("for", [pattern, slice, body]) => {
                let slice = self.any(slice)?;
                let is_slice = self.known(&slice.of).is_slice();
                self.require(is_slice, "a loop over this has no rule")?;
                self.defined("for", vec![slice], &[("PATTERN", pattern), ("BODY", body)])?;
            }
            ("assign", [place, sign, value]) => self.assign(sign.text == "+=", place, value)?,
            _ => {
                value = self.value(tree)?;
                if target == Target::Return {
                    let value = self.coerce(value.clone(), &self.result.clone())?;
                    self.push(Kind::Return, vec![value]);
                } else if target == Target::Nothing && value.has_effect() {
                    return self.refuse("a value that nothing takes");
                }
            }
        }
        self.at = before;
        Ok(value)
    }

    /// Puts a block into the current statements, with its value at the target.
    pub fn block(&mut self, statements: &[Node], target: Target) -> Done<Term> {
        let names = self.names.len();
        let mut value = self.unit();
        for (number, statement) in statements.iter().enumerate() {
            let is_last = number + 1 == statements.len();
            value = self.evaluate(statement, if is_last { target } else { Target::Nothing })?;
        }
        self.names.truncate(names);
        Ok(value)
    }

    // Puts an assignment into the current statements.
    fn assign(&mut self, is_sum: bool, place: &Node, value: &Node) -> Done<()> {
        let of = self.fresh(false);
        let place = self.alone("a place", place, &of)?;
        let mut value = self.term(value, &place.of)?;
        // The value comes first, also where C leaves the order open.
        let is_simple = !is_sum && matches!(place.kind, Kind::Local(_));
        if value.has_effect() && !is_simple {
            value = self.hold(value, "result", false);
        }
        if is_sum {
            let parts = vec![place.clone(), value];
            value = self.make(Kind::Binary("+"), parts, place.of.clone());
        }
        self.push(Kind::Assign, vec![place, value]);
        Ok(())
    }

    /// Returns a value that may be read more than once: what is computed is held in a variable.
    pub fn keep(&mut self, mut term: Term, name: &str) -> Term {
        if term.is_tuple() {
            let parts = std::mem::take(&mut term.parts).into_iter();
            term.parts = parts.map(|it| self.keep(it, name)).collect();
        }
        let is_kept = term.is_maybe() || term.is_tuple() || term.is_path();
        if is_kept { term } else { self.hold(term, name, false) }
    }

    fn if_else(&mut self, parts: &[Node], target: Target) -> Done<Term> {
        let fit = match (parts[0].kind, parts[0].parts.as_slice()) {
            ("let", [pattern, value]) => self.fits(value, pattern)?,
            _ => Fit { test: self.term(&parts[0], &Type::Boolean)?, bindings: Vec::new() },
        };
        let mut branches = vec![self.branch(fit, &parts[1], target)?];
        if let Some(otherwise) = parts.get(2) {
            let fit = Fit { test: self.boolean(true), bindings: Vec::new() };
            branches.push(self.branch(fit, otherwise, target)?);
        }
        self.join(branches, target)
    }

    // Makes the branch for what fits a pattern. Names may stand for its parts in a value, unless something may change
    // these meanwhile.
    fn branch(&mut self, Fit { test, bindings }: Fit, body: &Node, target: Target) -> Done<Branch> {
        let (statements, value) = self.apart(|it| {
            it.bind_all(bindings, |it, part| target == Target::Value && it.is_constant(part));
            it.evaluate(body, target)
        })?;
        Ok(Branch { test, statements, value })
    }

    /// Returns when a value fits a pattern.
    pub fn fits(&mut self, value: &Node, pattern: &Node) -> Done<Fit> {
        let found = self.any(value)?;
        let found = self.keep(found, "found");
        self.fit(pattern, &found)
    }

    fn match_arms(&mut self, value: &Node, arms: &[Node], target: Target) -> Done<Term> {
        let found = self.any(value)?;
        let found = self.keep(found, "found");
        let mut branches = Vec::new();
        for (number, arm) in arms.iter().enumerate() {
            let mut fit = self.fit(&arm.parts[usize::from(arm.has("comments"))], &found)?;
            if let Some(guard) = arm.get("guard") {
                let names = self.names.len();
                self.bind_all(fit.bindings.clone(), |_, _| true);
                let guard = self.alone("a guard", guard.last(), &Type::Boolean)?;
                self.names.truncate(names);
                fit.test = self.test("&&", fit.test, guard);
            } else if number + 1 == arms.len() {
                // All values that are left fit.
                fit.test = self.boolean(true);
            }
            branches.push(self.branch(fit, arm.last(), target)?);
        }
        self.join(branches, target)
    }

    // Ends branches: puts them into the current statements, and returns a value if that is the target.
    fn join(&mut self, mut branches: Vec<Branch>, target: Target) -> Done<Term> {
        branches.retain(|it| it.test.kind != Kind::Boolean(false));
        let always = branches.iter().position(|it| it.test.kind == Kind::Boolean(true));
        branches.truncate(always.map_or(branches.len(), |always| always + 1));
        if target != Target::Value {
            self.push_branches(branches);
            return Ok(self.unit());
        }
        self.require(always.is_some(), "this form has no rule")?;
        // The last branch goes on if all others leave.
        let (value, others) = (branches[branches.len() - 1].value.clone(), branches.len() - 1);
        let leaves = |it: &Branch| it.statements.last().is_some_and(Term::leaves);
        if branches[..others].iter().all(leaves) {
            self.push_branches(branches);
            return Ok(value);
        }
        // An array may be a slice.
        let types: Vec<Type> = branches.iter().map(|it| self.known(&it.value.of)).collect();
        let of = types.iter().find(|of| of.is_slice()).unwrap_or(&types[0]).clone();
        for branch in &mut branches {
            branch.value = self.coerce(branch.value.clone(), &of)?;
        }
        let is_choice = branches.iter().all(|it| it.statements.is_empty());
        self.require(is_choice, "statements or comments in a chosen value")?;
        let values = branches.into_iter().rev().map(|it| (it.test, it.value));
        let choice = values.reduce(|(always, other), (test, value)| {
            (always, self.make(Kind::Choice, vec![test, value, other], of.clone()))
        });
        self.expect(choice.map(|(_, choice)| choice), "no value")
    }

    // Puts branches into the current statements, as a chain of `if`.
    fn push_branches(&mut self, branches: Vec<Branch>) {
        let mut chain = Vec::new();
        for Branch { test, statements, .. } in branches.into_iter().rev() {
            let leaves = statements.last().is_some_and(Term::leaves);
            chain = match test.kind {
                Kind::Boolean(true) => statements,
                // What follows a branch that leaves needs no `else`.
                _ if leaves => [vec![self.when(test, statements, Vec::new())], chain].concat(),
                _ => vec![self.when(test, statements, chain)],
            };
        }
        self.extend(chain);
    }

    /// Returns an `if`.
    pub fn when(&self, condition: Term, then: Vec<Term>, otherwise: Vec<Term>) -> Term {
        let parts = vec![condition, self.block_of(then), self.block_of(otherwise)];
        self.make(Kind::If, parts, Type::UNIT)
    }
}
