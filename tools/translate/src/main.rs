//! Writes the Rust of the Cargo package and the library for C, or compares them. See `.ci/translate` at the top.

use std::path::Path;
use std::process::ExitCode;
use std::{env, fs};
use torkettle_translate::source::{Done, Fault};
use torkettle_translate::{c, compare, write};

fn main() -> ExitCode {
    let arguments: Vec<String> = env::args().skip(1).collect();
    let arguments: Vec<&str> = arguments.iter().map(String::as_str).collect();
    let done = match arguments[..] {
        [] => write(Path::new("")).map(|()| Vec::new()),
        ["--check"] => check(),
        ["--c", folder] => write_c(Path::new(folder)).map(|()| Vec::new()),
        _ => Ok(vec!["usage: .ci/translate [--check | --c FOLDER]".into()]),
    };
    let faults = done.unwrap_or_else(|fault| vec![fault.to_string()]);
    faults.iter().for_each(|fault| eprintln!("{fault}"));
    if faults.is_empty() { ExitCode::SUCCESS } else { ExitCode::FAILURE }
}

// Writes the library for C into a folder, with operators that assert what is proved.
fn write_c(folder: &Path) -> Done<()> {
    for (name, text) in c::made(Path::new(""), true)? {
        let file = folder.join(Path::new(name).file_name().unwrap_or_default());
        fs::write(&file, text).map_err(|error| Fault::of_file(&file, error))?;
    }
    Ok(())
}

// Compares, and returns what is wrong.
fn check() -> Done<Vec<String>> {
    let (files, differ) = compare(Path::new(""))?;
    println!("{files} files of the Cargo package and of C, {} differ", differ.len());
    let names = differ.keys().map(|file| file.display());
    Ok(names.map(|name| format!("{name} is not what .ci/translate makes")).collect())
}
