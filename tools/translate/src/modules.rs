//! The modules of the package: which files they are in, and their trees.
//!
//! Which engine and which calls the ten functions run on is one file per crate, `src/default_engine.rt`. Here another
//! file stands in its place, which names those that are tuned for compilers. The clauses are the same, and `.ci/kit`
//! proves the crates with these files, too.

use crate::source::{Done, Fault, Source, Span};
use crate::std_names::has;
use crate::tree::{Node, texts};
use crate::{PROVED, parser};
use std::collections::BTreeMap;
use std::fs;
use std::path::{Path, PathBuf};

/// The crates of the package. Their sources refer to one another by these names.
pub const CRATES: [&str; 6] =
    ["atoi_core", "atoi_fast", "atoi_lanes", "atoi_simd", "atoi_column", "atoi_formats"];

// The folder of the files that stand in place of `default_engine.rt`, one for each crate that has it. They end in
// `rs`, as the kit takes `rt` only in the folders of crates.
const TWINS: &str = "rust/default_engine";

// The modules of a crate that only the engine `Lanes` needs, whose vectors `rust/src/simd` does not have.
const LEFT_OUT: (&str, &str) = ("atoi_lanes", "kernels lanes wide_lanes window_32");

// The folder of the file that C has in place of one of these.
const TWINS_OF_C: &str = "c/default_engine";

// The module of a crate that the package has only with the feature `lanes`.
const WITH_LANES: (&str, &str) = ("atoi_fast", "vectors");

/// All modules of the package, in the order of their crates and paths.
pub struct Package {
    pub modules: Vec<Module>,
}

/// A module. `path` has the names below its crate, none for the root of the crate.
pub struct Module {
    pub crate_name: &'static str,
    pub path: Vec<String>,
    pub source: Source,
    pub items: Vec<Node>,
}

impl Package {
    /// Reads the sources in `crates` below `top`, as the package has them or C, and their trees.
    pub fn read(top: &Path, is_for_c: bool) -> Done<Package> {
        let mut modules = Vec::new();
        for crate_name in CRATES {
            let folder = Path::new("crates").join(crate_name).join("src");
            let files = files_in(top, &folder)?;
            let is_left_out = |name: &str| crate_name == LEFT_OUT.0 && has(LEFT_OUT.1, name);
            let sources = files.iter().filter_map(|file| Some((module_path(&folder, file)?, file)));
            let sources =
                sources.filter(|(path, _)| path.first().is_none_or(|it| !is_left_out(it)));
            // The root of the crate comes first.
            for (path, file) in sources.collect::<BTreeMap<_, _>>() {
                let folder = if is_for_c && crate_name == "atoi_simd" { TWINS_OF_C } else { TWINS };
                let twin = Path::new(folder).join(crate_name).with_extension("rs");
                let file = if path == ["default_engine"] { &twin } else { file };
                modules.push(Module::new(crate_name, path, Source::read(top, file)?)?);
            }
        }
        Ok(Package { modules })
    }

    /// Returns the number of a module, which is its place in `modules`.
    pub fn find(&self, crate_name: &str, path: &[String]) -> Option<usize> {
        self.modules
            .iter()
            .position(|module| module.crate_name == crate_name && module.path == path)
    }
}

impl Module {
    /// Returns the file that the package has this module in.
    pub fn rust_file(&self) -> PathBuf {
        let mut file = Path::new(PROVED).join(self.crate_name);
        file.extend(&self.path);
        if self.path.is_empty() { file.join("mod.rs") } else { file.with_extension("rs") }
    }

    /// Reads the tree of a source as the package has it.
    pub fn new(crate_name: &'static str, path: Vec<String>, source: Source) -> Done<Module> {
        let mut items = parser::parse(&source, "module")?;
        for item in items.iter_mut().filter(|_| path.is_empty()) {
            if is_of(item, crate_name, LEFT_OUT) {
                *item = Node::new(&source, "left_out", item.span, Vec::new());
            } else if is_of(item, crate_name, WITH_LANES) {
                let at = Span { end: item.span.start, ..item.span };
                item.parts.push(Node::new(&source, "with_lanes", at, Vec::new()));
            }
        }
        Ok(Module { crate_name, path, source, items })
    }
}

/// Returns the files in a folder and in the folders in it.
pub fn files_in(top: &Path, folder: &Path) -> Done<Vec<PathBuf>> {
    let entries = fs::read_dir(top.join(folder)).and_then(Iterator::collect::<Result<Vec<_>, _>>);
    let mut files = Vec::new();
    for entry in entries.map_err(|error| Fault::of_file(folder, error))? {
        let path = folder.join(entry.file_name());
        match entry.path().is_dir() {
            true => files.extend(files_in(top, &path)?),
            false => files.push(path),
        }
    }
    Ok(files)
}

// The path of the module that a file in the folder of a crate is, if it ends with `.rt`. Editors and systems write
// other files and folders beside them, also some that begin with a point.
fn module_path(folder: &Path, file: &Path) -> Option<Vec<String>> {
    let file = file.strip_prefix(folder).ok()?.to_str()?.strip_suffix(".rt")?;
    let path: Vec<String> = file.split('/').map(String::from).collect();
    let is_hidden = path.iter().any(|name| name.starts_with('.'));
    (!is_hidden).then(|| if file == "lib" { Vec::new() } else { path })
}

// Whether an item of the root of a crate declares one of these modules, or imports from them alone.
fn is_of(item: &Node, crate_name: &str, (owner, modules): (&str, &str)) -> bool {
    let is_import = |names: &[&str]| matches!(names, ["crate", name, ..] if has(modules, name));
    let is_of_modules = match item.kind {
        "declaration" => has(modules, item.name()),
        "use" => item.imports().iter().all(|path| is_import(&texts(path))),
        _ => false,
    };
    crate_name == owner && is_of_modules
}
