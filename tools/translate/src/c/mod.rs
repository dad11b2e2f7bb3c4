//! C from the trees: `lower` finds the functions that are needed, for the types that matter, and gives each its typed
//! form, and `print` writes them.

pub mod ir;
pub mod lower;
pub mod print;
pub mod terms;
pub mod text;
pub mod types;
pub mod world;

use crate::checks;
use crate::modules::Package;
use crate::resolve::Scopes;
use crate::source::Source;
use crate::std_names::has;
use ir::{Done, Function, Instance, Type};
use lower::Instances;
use print::{Printer, qualifier};
use std::collections::BTreeSet;
use std::path::Path;
use world::World;

/// The types whose calls C has.
const TYPES: &str = "i8 u8 i16 u16 i32 u32 i64 u64 i128 u128";

/// What C calls, for each of these types: functions by their paths, in which `T` is the type.
const ROOTS: &str = "atoi_fast::one_digit atoi_fast::quick_slice atoi_fast::long_slice atoi_fast::quick_field \
    atoi_fast::quick_prefix atoi_fast::prefix_by_digits atoi_fast::whole_by_digits atoi_simd::T::atoi_simd_parse \
    atoi_simd::T::atoi_simd_parse_prefix atoi_simd::T::atoi_simd_parse_pos \
    atoi_simd::T::atoi_simd_parse_prefix_pos atoi_core::AtoiSimdError::text atoi_formats::canonical \
    atoi_formats::json_integer atoi_column::is_separator atoi_column::Fields::new atoi_column::Fields::lines \
    atoi_column::Fields::position atoi_column::Fields::next atoi_column::Fields::read";

/// What of this is in `torkettle.h`, and what only a compiler of C++20 needs there, which may call it and all that it
/// calls in a constant expression.
const INLINE: &str =
    "atoi_fast::one_digit atoi_fast::quick_field atoi_fast::quick_prefix atoi_column::is_separator";
const CONSTANT: &str = "atoi_fast::prefix_by_digits atoi_fast::whole_by_digits";

/// What of this returns a number of any type as one of `W`, which is `i64` or `u64`. Each type has a short function of
/// its own, which passes its bits and its greatest number to a function of `W`.
const AS_WORD: &str = "atoi_fast::quick_field atoi_fast::quick_prefix";

const MADE: &str =
    "/* ---- Made by .ci/translate from the proved sources, up to the next such line. */\n\n";

const HEAD: &str =
    "/* Made by .ci/translate from the proved sources and c/interface. Do not edit. */\n";

/// What C calls where Rust inlines it: long functions that few numbers need. Each type would have a copy.
const CALLED: &str = "atoi_core::narrow_prefix atoi_core::whole_64 atoi_core::whole_128 atoi_fast::loaded_slice \
    atoi_fast::prefix_64 atoi_fast::prefix_128 atoi_fast::long_signed_prefix atoi_fast::long_prefix atoi_fast::window \
    atoi_simd::atoi_simd_parse_prefix";

/// The types that most numbers have, what C calls only for the others, and the crates whose functions gcc has to inline
/// in `torkettle.c`, but only for these types. It takes less time if it may choose for others.
const COMMON: &str = "i32 u32 i64 u64";
const CALLED_BY_OTHERS: &str = "atoi_column::read_part atoi_fast::prefix_pos";
const INLINED: &str = "atoi_column atoi_fast";

/// Says whether C calls a function that Rust inlines.
pub fn is_called(world: &World, key: &Instance) -> bool {
    let name = format!("{}::{}", world.module(key.id).crate_name, world.name(key.id));
    has(CALLED, &name) || is_for_others(key) && has(CALLED_BY_OTHERS, &name)
}

fn is_for_others(key: &Instance) -> bool {
    let is_common = |of: &Type| of.integer().is_some_and(|it| has(COMMON, it.0));
    key.bindings.get("T").is_some_and(|of| !is_common(of))
}

/// What is written by hand of the library: the start of its functions, the header and the source.
const INTERFACE: &str = "c/interface";

// Returns a file of the interface. Where a line of it is a comment such as `@print types.h, NAME: i8, TYPE: int8_t`, it
// has the text of that file, with `i8` for `NAME` and `int8_t` for `TYPE`.
fn interface(top: &Path, name: &str) -> Done<String> {
    let source = Source::read(top, &Path::new(INTERFACE).join(name))?;
    let mut text = String::new();
    for line in source.text.lines() {
        match line.strip_prefix("/* @print ").and_then(|it| it.strip_suffix(" */")) {
            Some(print) => text += &printed(top, print)?,
            None => text.extend([line, "\n"]),
        }
    }
    Ok(text)
}

fn printed(top: &Path, print: &str) -> Done<String> {
    let mut words = print.split(", ");
    let mut text = interface(top, words.next().unwrap_or_default())?;
    for (word, own) in words.filter_map(|it| it.split_once(": ")) {
        text = text.replace(word, own);
    }
    // A line that goes on behind a comma is broken anew.
    let (mut lines, mut open) = (String::new(), String::new());
    for line in text.lines() {
        open += if open.is_empty() { line } else { line.trim_start() };
        if open.ends_with(',') {
            open.push(' ');
        } else {
            lines += &(text::wrapped(&open) + "\n");
            open.clear();
        }
    }
    Ok(lines)
}

/// Returns the files of the library for C that are made of the sources below `top`: the header and the source. Their
/// operators may assert that nothing overflows.
pub fn made(top: &Path, is_checked: bool) -> Done<[(&'static str, String); 2]> {
    let package = Package::read(top, true)?;
    let scopes = Scopes::new(&package)?;
    checks::check(&package, &scopes)?;
    let world = World::new(&scopes);
    let (inline, rest) = print(&world, ROOTS, TYPES, is_checked)?;
    let part = |name: &str| interface(top, name);
    let checked = if is_checked { part("checked.h")? } else { String::new() };
    let inline = format!("{}\n{checked}{MADE}{inline}", part("prelude.h")?);
    let names = inline
        .lines()
        .filter_map(|line| line.trim_start_matches('#').trim().strip_prefix("define TK_"));
    let names: BTreeSet<&str> = names.filter_map(|it| it.split(['(', ' ']).next()).collect();
    let forgotten: String = names.iter().map(|name| format!("#undef TK_{name}\n")).collect();
    let header = part("torkettle.h")?.replace("/* @proved */\n", &inline);
    let header = header.replace("/* @forget */\n", &forgotten);
    let source = part("torkettle.c")?.replace("/* @proved */\n", &rest);
    Ok([
        ("c/include/torkettle.h", HEAD.to_owned() + &header),
        ("c/src/torkettle.c", HEAD.to_owned() + &source),
    ])
}

/// Prints functions, and all that they call, as the part that the inline ones need in each file, and the rest. Functions
/// that are never inlined are in the rest, and the inline part declares them.
pub fn print(world: &World, roots: &str, types: &str, is_checked: bool) -> Done<(String, String)> {
    let mut instances = Instances::new(world);
    let mut keys = Vec::new();
    for path in roots.split_whitespace() {
        for of in types.split_whitespace().filter_map(world::integer) {
            let callee = lower::root(&mut instances, path, of)?;
            let key = match has(AS_WORD, path) {
                true => instances.add_short(&callee)?,
                false => instances.add(&callee)?,
            };
            keys.push((key, path));
        }
    }
    let reached = |list: &str, is_end: &dyn Fn(&Function) -> bool| {
        let (mut found, mut seen) = (Vec::new(), BTreeSet::new());
        let keys = keys.iter().filter(|(_, path)| has(list, path));
        keys.for_each(|(key, _)| instances.reach(key, is_end, &mut found, &mut seen));
        (found, seen)
    };
    let is_far = |it: &Function| matches!(qualifier(world, it), "TK_NOINLINE" | "TK_COLD");
    let (functions, _) = reached(roots, &|_| false);
    let (_, inline) = reached(INLINE, &is_far);
    let (_, constant) = reached(CONSTANT, &|_| false);
    let qualifier = |it: &Function| match inline.contains(&it.key) && is_far(it) {
        true => "TK_FAR",
        false if constant.contains(&it.key) => "TK_CONSTEXPR",
        false => qualifier(world, it),
    };
    let in_source = |it: &Function| match qualifier(it) {
        "TK_INLINE" | "TK_HINTED" => {
            let is_inlined = has(INLINED, world.module(it.key.id).crate_name);
            if is_inlined && !is_for_others(&it.key) { "TK_INLINE" } else { "TK_HINTED" }
        }
        other => other,
    };
    let mut printer = Printer::new(world, &functions, is_checked)?;
    for far in functions.iter().filter(|it| qualifier(it) == "TK_FAR") {
        printer.declaration(far, "TK_FAR")?;
    }
    let (near, others): (Vec<&Function>, Vec<_>) =
        functions.into_iter().partition(|it| inline.contains(&it.key) && !is_far(it));
    near.iter().try_for_each(|it| printer.function(it, qualifier(it)))?;
    let inline = printer.take();
    let (constant, rest): (Vec<&Function>, Vec<_>) =
        others.into_iter().partition(|it| constant.contains(&it.key));
    constant.iter().try_for_each(|it| printer.function(it, "TK_CONSTEXPR"))?;
    let constant = printer.take();
    rest.iter().try_for_each(|it| printer.function(it, in_source(it)))?;
    Ok((format!("{inline}\n#ifdef TK_ALL\n{constant}#endif\n"), printer.take()))
}
