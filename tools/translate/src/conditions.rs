//! The conditions of what users can reach. The proofs show that our own calls meet them. For a user's call, each
//! becomes a test at the start of its function, or is refused.

use crate::modules::{Module, Package};
use crate::source::{Done, Edit, Span};
use crate::std_names::has;
use crate::tree::Node;

/// A clause that callers must meet, the names of definitions in it, each with its module, the parameters that it is
/// about, and what tests it in Rust.
struct Condition {
    clause: &'static str,
    names: &'static [(&'static str, &'static str)],
    parameters: &'static [&'static str],
    test: &'static str,
}

const PRELUDE: &str = "Rattle.std.specs.Prelude";
const DIGIT: &str = "Rattle.atoi_core.specs.Digit";
const FIELDS: &str = "Rattle.atoi_column.specs.Fields";

const CONDITIONS: [Condition; 3] = [
    Condition {
        clause: "is_separator separator ≡ true",
        names: &[("is_separator", FIELDS), ("≡", PRELUDE), ("true", PRELUDE)],
        parameters: &["separator: u8"],
        test: "assert!(crate::column::is_separator(separator), \"a sign or a digit separates fields\");",
    },
    Condition {
        clause: "IsFalse (is_digit decimal_table byte)",
        names: &[("IsFalse", PRELUDE), ("is_digit", DIGIT), ("decimal_table", DIGIT)],
        parameters: &["byte: u8"],
        test: "assert!(!byte.is_ascii_digit(), \"a digit is to follow the number\");",
    },
    Condition {
        clause: "(index + length self.rest < 2 ^ 64) × (place + length self.rest < 2 ^ 64)",
        names: &[("+", PRELUDE), ("length", PRELUDE), ("<", PRELUDE), ("^", PRELUDE)],
        parameters: &["index: usize", "place: usize"],
        test: "assert!(self.rest.len() <= usize::MAX - index, \"the fields have too many indices\"); \
            assert!(self.rest.len() <= usize::MAX - place, \"the fields end above usize::MAX\");",
    },
];

// The clauses of methods that nothing tests, by the modules in which these are written. DIFFERENCES describes those
// of the first two traits. No item that users can name mentions `Engine`, and the others are private methods.
const UNTESTED: [(&str, &str); 9] = [
    ("atoi_core::number::Number::from_pos", "value ≤ GREATEST"),
    ("atoi_core::number::Number::from_parts", "minus ≡ true → SIGNED ≡ true"),
    ("atoi_core::number::Number::from_parts", "magnitude ≤ bound_of int_type minus"),
    ("atoi_core::number::Signed::from_neg", "magnitude ≤ LEAST_MAGNITUDE"),
    ("atoi_core::engine::Engine::prefix_64", "IsBound64 limit bound"),
    ("atoi_core::engine::Engine::prefix_128", "HasDigits 39 bound"),
    ("atoi_column::fields::read::Fields::read_plain", "from + most ≤ length values.old"),
    ("atoi_column::fields::read::Fields::read_guessed", "from ≤ length values.old"),
    ("atoi_column::fields::read::Fields::read_part", "from + most ≤ length values.old"),
];

// The crates of which not all public functions are exported.
const INNER_CRATES: &str = "atoi_core atoi_fast atoi_lanes";

/// Returns the tests that are put into each module. Users can call the functions whose names are `exported`.
pub fn tests(package: &Package, exported: &[&str]) -> Done<Vec<Vec<Edit>>> {
    let tests = package.modules.iter().map(|module| {
        let mut finder = Finder { module, exported, tests: Vec::new() };
        module.items.iter().try_for_each(|item| finder.item(item))?;
        Ok(finder.tests)
    });
    tests.collect()
}

struct Finder<'a> {
    module: &'a Module,
    exported: &'a [&'a str],
    tests: Vec<Edit>,
}

impl Finder<'_> {
    fn item(&mut self, item: &Node) -> Done<()> {
        let functions = || item.members().iter().filter(|member| member.kind == "function");
        // All public functions of the other crates are to be exported.
        let is_inner = has(INNER_CRATES, self.module.crate_name);
        let is_callable = item.is_public() && (!is_inner || self.exported.contains(&item.name()));
        match item.kind {
            "function" if is_callable => self.test("", item, item.get("block")),
            // A test in a provided method would not be in those that replace it.
            "trait" => functions().try_for_each(|method| self.test(item.name(), method, None)),
            "model" => self.model(item),
            "implementation" => functions().try_for_each(|method| {
                let is_private = item.of_trait().is_none() && !method.is_public();
                let owner = if is_private { name_of(item) } else { "" };
                self.test(owner, method, method.get("block"))
            }),
            "struct" if !is_sealed(item) => {
                let reason = "a ghost item of a struct that users can write, or change";
                item.get("ghost").map_or(Ok(()), |ghost| self.refuse(ghost, reason))
            }
            _ => Ok(()),
        }
    }

    fn refuse(&self, node: &Node, reason: &str) -> Done<()> {
        Err(self.module.source.fault(node.span, reason))
    }

    // Puts what tests the conditions of a function into its body, if it has one. Its owner, a trait or a type of
    // the module, says which conditions need no test.
    fn test(&mut self, owner: &str, function: &Node, body: Option<&Node>) -> Done<()> {
        let Module { crate_name, path, .. } = self.module;
        let path = format!("{crate_name}::{}::{owner}::{}", path.join("::"), function.name());
        for clause in function.all("condition") {
            let text = &clause.last().text;
            let words = text[1..text.len() - 1].split_whitespace();
            let text = words.collect::<Vec<_>>().join(" ");
            if UNTESTED.contains(&(&path, &text)) {
                continue;
            }
            let known = CONDITIONS.iter().find(|known| known.clause == text);
            let known = known.filter(|known| self.is_about(known, function));
            let (Some(known), Some(body)) = (known, body) else {
                return self.refuse(clause, "a condition that nothing tests in Rust");
            };
            let start = body.span.start + 1;
            self.tests.push((Span { start, end: start }, known.test.into()));
        }
        Ok(())
    }

    // Whether a function has the parameters of a condition, and the names in it stand for their definitions.
    fn is_about(&self, condition: &Condition, function: &Node) -> bool {
        let parameters = function.all("parameter").map(|it| self.module.source.at(it.span));
        let parameters: Vec<&str> = parameters.map(|it| it.trim_start_matches("mut ")).collect();
        let generics = function.get("generics").into_iter().flat_map(|it| &it.parts);
        let own: Vec<&str> = function.all("parameter").chain(generics).map(Node::name).collect();
        let is_meant = |name: &str, from| !own.contains(&name) && self.imports(name, from);
        condition.parameters.iter().all(|parameter| parameters.contains(parameter))
            && condition.names.iter().all(|(name, from)| is_meant(name, from))
    }

    // Whether all `ghost use` lines of the module that import a name, and at least one, import it from here.
    fn imports(&self, name: &str, from: &str) -> bool {
        let items = self.module.items.iter();
        let items = items.flat_map(|item| std::iter::once(item).chain(item.members()));
        let is_name = |it: &Node| it.text.trim_matches('◌') == name;
        let is_from = |it: &Node| it.all("word").map(|it| it.text.as_str()).eq(from.split('.'));
        let imports = items.filter(|item| item.all("ghost_name").any(is_name));
        let mut imports = imports.map(is_from).peekable();
        imports.peek().is_some() && imports.all(|it| it)
    }

    // Refuses an invariant of what users can write, or change.
    fn model(&self, item: &Node) -> Done<()> {
        let found = self.module.items.iter().find(|found| found.name() == name_of(item));
        let is_invariant = |it: &&Node| it.kind == "ghost" && it.parts[0].text == "invariant";
        match item.members().iter().find(is_invariant) {
            Some(invariant) if !found.is_some_and(is_sealed) => {
                self.refuse(invariant, "an invariant of a type whose fields are not all private")
            }
            _ => Ok(()),
        }
    }
}

// The name of the type that an `impl` is for, or of the module that it is in.
fn name_of(implementation: &Node) -> &str {
    let target = implementation.target();
    if target.kind == "path" { target.parts[0].name() } else { "" }
}

// Whether users can neither write nor change a struct, since its fields are private.
fn is_sealed(item: &Node) -> bool {
    let mut fields = item.all("field");
    item.kind == "struct" && item.has("field") && !fields.any(Node::is_public)
}
