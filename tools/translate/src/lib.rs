//! Reads the proved sources by their grammar, and makes the Rust of the Cargo package, `rust/src/proved`, and the
//! library for C of them.
//!
//! The stages are those of a compiler: `lexer` makes tokens of a source, `parser` makes a tree of these by the rules of
//! `grammar`, `modules` collects the trees of the package, `resolve` says what their names stand for, `checks` and
//! `conditions` refuse what would lose its meaning, and `rust` prints. `facade` reads what the package exports. `c`
//! prints the library for C.

pub mod c;
pub mod checks;
pub mod conditions;
pub mod facade;
pub mod grammar;
pub mod lexer;
pub mod modules;
pub mod notation;
pub mod parser;
pub mod resolve;
pub mod rust;
pub mod source;
pub mod std_names;
pub mod tree;

use modules::{Package, files_in};
use resolve::Scopes;
use source::{Done, Fault, Source};
use std::collections::BTreeMap;
use std::fs;
use std::path::{Path, PathBuf};

/// The folder of the Rust that is made here.
pub const PROVED: &str = "rust/src/proved";
const PACKAGE: &str = "rust/src";
const FACADE: &str = "rust/src/lib.rs";

/// Makes the Rust of the sources below `top`, and the library for C where there is one: each file, and its text.
pub fn made(top: &Path) -> Done<BTreeMap<PathBuf, String>> {
    let facade = Source::read(top, Path::new(FACADE))?;
    check_others(top)?;
    let mut made = translate(&facade, &Package::read(top, false)?)?;
    if top.join("c/interface").exists() {
        made.extend(c::made(top, false)?.map(|(file, text)| (PathBuf::from(file), text)));
    }
    Ok(made)
}

/// Makes the Rust of a package that exports what the facade says.
pub fn translate(facade: &Source, package: &Package) -> Done<BTreeMap<PathBuf, String>> {
    let exports = facade::exports(facade)?;
    let scopes = Scopes::new(package)?;
    checks::check(package, &scopes)?;
    facade::check(facade, &exports, &scopes)?;
    let exported: Vec<&str> = exports.iter().map(|export| export.name.as_str()).collect();
    let tests = conditions::tests(package, &exported)?;
    let modules = package.modules.iter().zip(tests);
    Ok(modules.map(|(module, tests)| (module.rust_file(), rust::print(module, tests))).collect())
}

/// Returns how many files are made, and of those below `top` that differ, what they should hold, if anything.
pub fn compare(top: &Path) -> Done<(usize, BTreeMap<PathBuf, Option<String>>)> {
    let made = made(top)?;
    let number = made.len();
    let mut differ = BTreeMap::new();
    if top.join(PROVED).exists() {
        differ.extend(files_in(top, Path::new(PROVED))?.into_iter().map(|file| (file, None)));
    }
    differ.extend(made.into_iter().map(|(file, text)| (file, Some(text))));
    let held = |file: &Path| fs::read_to_string(top.join(file)).ok();
    differ.retain(|file, text| text.is_none() || *text != held(file));
    Ok((number, differ))
}

/// Writes the files below `top`, and removes all others from the folder of the Rust.
pub fn write(top: &Path) -> Done<()> {
    for (file, text) in compare(top)?.1 {
        let path = top.join(&file);
        let done = match text {
            None => fs::remove_file(&path),
            Some(text) => fs::create_dir_all(path.parent().unwrap_or(top))
                .and_then(|()| fs::write(&path, text)),
        };
        done.map_err(|error| Fault::of_file(&file, error))?;
    }
    Ok(())
}

// Refuses what the hand-written files other than the facade must not name. Hidden files are no modules.
fn check_others(top: &Path) -> Done<()> {
    let files = files_in(top, Path::new(PACKAGE))?;
    let is_other = |file: &&PathBuf| {
        let name = file.to_string_lossy();
        let is_rust = name.ends_with(".rs") && !name.contains("/.");
        is_rust && !file.starts_with(PROVED) && name != FACADE
    };
    files.iter().filter(is_other).try_for_each(|it| facade::check_other(&Source::read(top, it)?))
}
