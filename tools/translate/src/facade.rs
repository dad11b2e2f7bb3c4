//! What `rust/src/lib.rs` exports of the proved crates. Conditions are tested in what is exported by name, so
//! no export may be a module, all names of one, or another name of something. What is proved of a trait holds
//! for our own types alone, so users must not be able to implement one.

use crate::modules::CRATES;
use crate::parser::parse;
use crate::resolve::{Id, Scopes};
use crate::source::{Done, Fault, Source, Span};
use crate::std_names::has;
use crate::tree::{Node, texts};

// The modules that depend on the feature `lanes`.
const MODULES_OF_LANES: &str = "atoi_lanes lanes simd";

/// A name that is exported, of a crate.
pub struct Export {
    pub crate_name: String,
    pub name: String,
    pub span: Span,
}

/// Reads what the facade exports. It names the proved crates only in `use proved::CRATE::NAME;` and
/// `use proved::CRATE::{NAME, ..};`, where `crate::` may be in front. Its items are modules and exports.
pub fn exports(source: &Source) -> Done<Vec<Export>> {
    let mut exports = Vec::new();
    let items = parse(source, "facade")?;
    let mut left: Vec<&Node> = items.iter().collect();
    while let Some(item) = left.pop() {
        left.extend(item.all("outer").chain(item.all("export")));
        let refuse = |form: &str| Err(source.fault(item.span, format!("{form} is not known here")));
        let needs_lanes = item.parts[0].all("notice").any(|notice| notice.has("lanes"));
        if needs_lanes && !has(MODULES_OF_LANES, item.name()) {
            return refuse("this item for the feature `lanes`");
        }
        for path in item.imports() {
            match texts(&path)[..] {
                ["proved", owner, name] | ["crate", "proved", owner, name]
                    if CRATES.contains(&owner) =>
                {
                    let (crate_name, span) = (owner.to_string(), path[path.len() - 1].span);
                    exports.push(Export { crate_name, name: name.into(), span });
                }
                ref names if names.contains(&"proved") => return refuse("this form of export"),
                _ => {}
            }
        }
    }
    Ok(exports)
}

/// Refuses an export that is no function, struct, `enum` or sealed trait.
pub fn check(source: &Source, exports: &[Export], scopes: &Scopes) -> Done<()> {
    let item = |it: &Export| scopes.resolve(0, &[&it.crate_name, &it.name])?.definition.item();
    let exported: Vec<Id> = exports.iter().filter_map(item).collect();
    for export @ Export { name, span, .. } in exports {
        if !item(export).is_some_and(|id| may_be_exported(id, &exported, scopes)) {
            let reason = format!("`{name}` is no function, struct, `enum` or sealed trait");
            return Err(source.fault(*span, reason));
        }
    }
    Ok(())
}

// A trait is sealed if it has a supertrait of ours that is not exported: no path of a user's names that one.
fn may_be_exported(id: Id, exported: &[Id], scopes: &Scopes) -> bool {
    let item = scopes.item(id);
    match (item.kind, item.get("path")) {
        ("function" | "struct" | "enum", _) => true,
        ("trait", Some(bound)) => {
            let found = scopes.resolve(id.module, &bound.names());
            let above = found.and_then(|found| found.definition.item());
            above.is_some_and(|above| !exported.contains(&above))
        }
        _ => false,
    }
}

/// Refuses a hand-written file that is not the facade if it names the proved crates: it could export what is in
/// them, or call it where its conditions do not hold. It is read by words, as no grammar of ours knows all of Rust:
/// no comment or text can hide one. A file that it takes in must be a file of Rust in the same folder.
pub fn check_other(source: &Source) -> Done<()> {
    let is_refused = |line: &str| {
        let has = |word| line.split(|it| !is_part(it)).any(|part| part == word);
        has("proved") || has("include") || has("path") && !is_plain_path(line.trim())
    };
    let Some(number) = source.text.lines().position(is_refused) else { return Ok(()) };
    let reason = "`proved`, or a file that is not read here, outside of the facade";
    Err(Fault { file: source.path.clone(), line: Some(number + 1), reason: reason.into() })
}

// Whether a line is `#[path = "NAME.rs"]`.
fn is_plain_path(line: &str) -> bool {
    let name = line.strip_prefix("#[path = \"").and_then(|rest| rest.strip_suffix(".rs\"]"));
    name.is_some_and(|name| name.chars().all(is_part))
}

fn is_part(character: char) -> bool {
    character.is_alphanumeric() || character == '_'
}
