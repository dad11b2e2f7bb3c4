//! Tests of the program, on packages of a few modules, and on the one of this repository.

mod conditions;
mod forms;
mod package;

use std::path::Path;
use torkettle_translate::c::{self, world::World};
use torkettle_translate::modules::{CRATES, Module, Package};
use torkettle_translate::resolve::Scopes;
use torkettle_translate::source::{Done, Source};
use torkettle_translate::translate;

/// The top of the repository.
pub const TOP: &str = concat!(env!("CARGO_MANIFEST_DIR"), "/../..");

/// Returns the facade and the package of this repository.
pub fn repository() -> (Source, Package) {
    let facade = std::fs::read_to_string(Path::new(TOP).join("rust/src/lib.rs")).unwrap();
    (Source::new(Path::new("lib.rs"), facade), Package::read(Path::new(TOP), false).unwrap())
}

/// Returns what is made of a package in which a module has another text.
pub fn with_text<T>(
    package: &mut Package,
    number: usize,
    text: String,
    make: impl FnOnce(&Package) -> Done<T>,
) -> Done<T> {
    let Module { crate_name, path, source, .. } = &package.modules[number];
    let mut module = Module::new(crate_name, path.clone(), Source::new(&source.path, text))?;
    std::mem::swap(&mut package.modules[number], &mut module);
    let made = make(package);
    std::mem::swap(&mut package.modules[number], &mut module);
    made
}

/// Returns a package in which one crate is a source, and the others are empty.
pub fn package(crate_name: &str, text: &str) -> Done<Package> {
    let modules = CRATES.into_iter().map(|name| {
        let text = if name == crate_name { text } else { "" };
        let source = Source::new(Path::new(&format!("{name}/lib.rt")), text.into());
        Module::new(name, Vec::new(), source)
    });
    Ok(Package { modules: modules.collect::<Done<_>>()? })
}

/// Makes the Rust of a module, and returns it without the comment that says of what it is made.
pub fn rust(facade: &Source, package: &Package, number: usize) -> Done<String> {
    let rust = translate(facade, package)?.remove(&package.modules[number].rust_file()).unwrap();
    Ok(rust.split_once(" */ ").unwrap().1.into())
}

/// Makes the C of the function `f` of a source of `atoi_core`, for `u32` if it is generic, and of all that it calls.
pub fn c(text: &str, is_checked: bool) -> Done<String> {
    let package = package("atoi_core", text)?;
    let scopes = Scopes::new(&package)?;
    Ok(c::print(&World::new(&scopes), "atoi_core::f", "u32", is_checked)?.1)
}

/// Returns the words of a text, without the places of functions.
pub fn joined(text: &str) -> String {
    let lines = text.lines().filter(|line| !line.starts_with("/* atoi_core/lib.rt:"));
    lines.flat_map(str::split_whitespace).collect::<Vec<_>>().join(" ")
}
