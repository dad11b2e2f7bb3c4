//! The library that the kit proves and builds, in a folder outside the repository: the merge gate refuses a Rattle file
//! that belongs to no crate of the repository.

use std::fs;
use std::path::Path;
use std::process::Command;
use torkettle_common::cache::{self, entries, failed, folder, read, repository, write};
use torkettle_common::command::run;
use torkettle_common::object::Object;

const FILES: [(&str, &str); 3] = [
    ("lib.rt", include_str!("../exports/lib.rt.in")),
    ("ask.rt", include_str!("../exports/ask.rt.in")),
    ("answer.rt", include_str!("../exports/answer.rt.in")),
];

/// Which kit there is, in one line.
pub fn version() -> Result<String, String> {
    run(Command::new("rt").arg("version")).map(|line| line.trim().to_string())
}

/// Builds the function that makes any call of words or lanes, and loads it. The kit proves it and what it uses, and
/// keeps what it has proved.
pub fn object(cpu: &str) -> Result<Object, String> {
    let workspace = folder("checkout");
    for name in entries(&repository().join("crates"))?.iter().filter_map(|it| it.file_name()) {
        for part in ["src", "specs", "proofs"] {
            let place = Path::new("crates").join(name).join(part);
            copy(&repository().join(&place), &workspace.join(&place))?;
        }
    }
    let graph = read(&repository().join("crates.txt"))?;
    write(
        &workspace.join("crates.txt"),
        &format!("{graph}atoi_ask staticlib: atoi_core atoi_simd\n"),
    )?;
    let own = workspace.join("crates/atoi_ask");
    for (name, text) in FILES {
        write(&own.join("src").join(name), text)?;
    }
    run(Command::new("rt").args(["lib", "--cpu", cpu]).current_dir(&own))?;
    link(&own.join("out/libatoi_ask.a"))
}

// Makes a folder the same as another one, which may not be there.
fn copy(from: &Path, to: &Path) -> Result<(), String> {
    if to.is_dir() {
        fs::remove_dir_all(to).map_err(|error| failed(to, error))?;
    }
    if !from.is_dir() {
        return Ok(());
    }
    let parent = to.parent().unwrap_or(to);
    fs::create_dir_all(parent).map_err(|error| failed(parent, error))?;
    run(Command::new("cp").arg("-a").arg(from).arg(to)).map(|_| ())
}

fn link(archive: &Path) -> Result<Object, String> {
    let object = cache::empty_folder("kit")?.join("answers.so");
    let mut linker = Command::new("cc");
    linker.args(["-shared", "-Wl,-Bsymbolic", "-Wl,-u,torkettle_answer", "-o"]).arg(&object);
    run(linker.arg(archive).args(["-lpthread", "-ldl", "-lm"]))?;
    Object::open(&object)
}
