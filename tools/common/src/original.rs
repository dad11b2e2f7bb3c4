//! The Rust crate `atoi_simd`, in a folder or from crates.io.

use crate::cache::{failed, read};
use crate::cargo::{Generated, dependency};
use crate::command::print_left_out;
use std::env;
use std::fs;
use std::path::{Path, PathBuf};

// The version that docs/DIFFERENCES.md is about.
const VERSION: &str = "0.18.1";

/// What the crate is called if it is built for a processor.
pub fn name(cpu: &str) -> String {
    let kind = match cpu {
        "x86-64" => "portable",
        "x86-64-v2" => "SSE4.1",
        "x86-64-v3" => "AVX2",
        _ => cpu,
    };
    format!("the original, {kind} build {VERSION}")
}

/// What a manifest asks for: the crate in a folder that is named here or by TORKETTLE_ORIGINAL, or that of crates.io.
/// If no folder is named and it cannot be downloaded, it is left out.
pub fn find(named: Option<PathBuf>) -> Result<Option<String>, String> {
    let folder = named.or_else(|| env::var_os("TORKETTLE_ORIGINAL").map(PathBuf::from));
    let line = match &folder {
        Some(folder) => in_folder(folder)?,
        None => format!("atoi_simd = \"={VERSION}\""),
    };
    let (dependencies, files) = (vec![line.clone()], vec![("lib.rs", String::new())]);
    match (Generated { dependencies, files, ..Generated::default() }).open("found") {
        Ok(_) => Ok(Some(line)),
        Err(fault) if folder.is_some() => Err(fault),
        Err(fault) => {
            print_left_out("the original, since there is no --original FOLDER", &fault);
            Ok(None)
        }
    }
}

// A folder is the folder of the crate, or has it in `atoi_simd`, with what it uses.
fn in_folder(folder: &Path) -> Result<String, String> {
    let top = fs::canonicalize(folder).map_err(|error| failed(folder, error))?;
    let package = if top.join("Cargo.toml").is_file() { top } else { top.join("atoi_simd") };
    let manifest = package.join("Cargo.toml");
    if !read(&manifest)?.lines().any(|line| line == format!("version = \"{VERSION}\"")) {
        return Err(format!("{} is not of version {VERSION}", manifest.display()));
    }
    Ok(dependency("atoi_simd", "atoi_simd", &package, &[]))
}
