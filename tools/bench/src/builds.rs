//! Builds shared objects with the loops of tables: of a crate in which the calls of several libraries are inlined, as
//! they are in a program that uses them, and of C++ that calls the C library and `std::from_chars`.

use crate::input::Loop;
use crate::table::{Reader, Side, Table, Task, export, exports};
use std::fs;
use std::path::{Path, PathBuf};
use std::process::Command;
use torkettle_common::cache::{empty_folder, failed, folder, read, repository, write};
use torkettle_common::cargo::Generated;
use torkettle_common::command::run;
use torkettle_common::object::Object;

/// The shared objects in one layout, as `Reader::object` numbers them.
pub type Layout = Vec<Object>;

/// The loops of a table for a task, by sides. One that has no loop has `None`.
pub fn loops(table: &Table, task: &Task, layout: &Layout) -> Vec<Option<Loop>> {
    let of = |side: &Side| {
        // SAFETY: all exports of these objects have this type.
        unsafe { layout[side.reader.object].function(&export(&side.code(task)?)) }
    };
    table.sides.iter().map(of).collect()
}

// The flag of rustc that lets no jump cross or end at a multiple of 32, where some processors are slow.
const WITHIN_32_BYTES: &str = "-C llvm-args=-x86-branches-within-32B-boundaries";

// The flags of rustc for each layout. The time of a loop moves with its address, and so every export begins a line of
// the cache, and each is timed in several layouts.
const RUST_LAYOUTS: [&str; 2] = [
    "-C llvm-args=-align-all-functions=6",
    "-C llvm-args=-align-all-functions=6 -C llvm-args=-align-all-nofallthru-blocks=5",
];

/// The loops in Rust by readers in each layout, or in that of a usual build if they are counted.
pub fn rust(
    dependencies: &[String],
    readers: &[Reader],
    cpu: &str,
    tables: &[Table],
    is_counted: bool,
) -> Result<Vec<Layout>, String> {
    let flags = RUST_LAYOUTS.map(|layout| format!(" {WITHIN_32_BYTES} {layout}"));
    let flags = if is_counted { vec![String::new()] } else { flags.to_vec() };
    let tables_ld = repository().join("tools/bench/exports/tables.ld");
    let layout = |flags: String| {
        let generated = Generated {
            dependencies: dependencies.to_vec(),
            files: vec![
                ("lib.rs", rust_source(readers, tables)),
                ("loops.rs", include_str!("../exports/loops.rs").to_string()),
                ("readers.rs", include_str!("../exports/readers.rs").to_string()),
                ("texts.rs", include_str!("../exports/texts.rs").to_string()),
            ],
            flags: format!("-C target-cpu={cpu} -C link-arg=-Wl,-T,{}{flags}", tables_ld.display()),
            is_debug: false,
        };
        Ok(vec![generated.open("rust")?])
    };
    flags.into_iter().map(layout).collect()
}

// The text of `lib.rs`.
fn rust_source(readers: &[Reader], tables: &[Table]) -> String {
    let list = |word| -> String {
        let readers = readers.iter().filter(|it| it.words.contains(word) && !it.library.is_empty());
        readers.map(|it| format!("{} = {}, ", it.code, it.library)).collect()
    };
    let (libraries, packages) = (list("@any"), list("@package"));
    let sides = format!(
        "\npub mod sides {{
    use crate::{{readers::Number, texts::Texts}};
    pub use crate::readers::{{ByteLoop, Reader, Standard}};
    crate::libraries! {{ {libraries}}}
    crate::packages! {{ {packages}}}
}}\n\n"
    );
    let exports = exports(tables, 0, |name, code| format!("export!({name}, {code});\n"));
    [include_str!("../exports/lib.rs"), &sides, &exports].concat()
}

const CPP_FLAGS: &str = "-std=gnu++17 -O3 -fPIC -shared -Wa,-mbranches-within-32B-boundaries \
                         -Wl,-Bsymbolic -Wl,--gc-sections -falign-functions=64";

// One more flag of g++ for each layout.
const CPP_LAYOUTS: [&str; 2] = ["-falign-loops=16", "-falign-loops=64"];

/// The loops in C++ in each layout, each shared object with the C library of one repository.
pub fn cpp(repositories: &[&Path], tables: &[Table]) -> Result<Vec<Layout>, String> {
    let room = empty_folder("c")?;
    let object = |layout: &str, number: usize, library: &Path| {
        let (file, object) = (room.join("loops.cc"), room.join(format!("{layout}{number}.so")));
        let exports = exports(tables, number, |name, code| format!("EXPORT({name}, {code})\n"));
        write(&file, &[include_str!("../exports/loops.cc"), &exports].concat())?;
        let mut compiler = Command::new("g++");
        compiler.args(CPP_FLAGS.split_whitespace()).arg(layout).arg("-I");
        compiler.arg(library.join("include")).arg(file).arg(c_library(library)?);
        run(compiler.args(["-lpthread", "-ldl", "-lm", "-o"]).arg(&object))?;
        Object::open(&object)
    };
    let layout = |layout: &&str| {
        let libraries = repositories.iter().map(|repository| repository.join("c")).enumerate();
        let objects = libraries.map(|(number, library)| object(layout, number, &library));
        objects.collect()
    };
    CPP_LAYOUTS.iter().map(layout).collect()
}

// The C library as one file of C or, in older commits, as cargo builds it: without jumps that cross 32 bytes.
fn c_library(library: &Path) -> Result<PathBuf, String> {
    let (source, target) = (library.join("src/torkettle.c"), library.join("target"));
    if source.exists() {
        return Ok(source);
    }
    let mut cargo = Command::new("cargo");
    cargo.args(["build", "--release", "--quiet", "--target-dir"]).arg(&target).current_dir(library);
    run(cargo.env("RUSTFLAGS", WITHIN_32_BYTES))?;
    Ok(target.join("release/libtorkettle.a"))
}

/// A commit, with its files in a folder.
pub struct Commit {
    /// The short name.
    pub name: String,
    pub folder: PathBuf,
}

impl Commit {
    /// Unpacks a commit into the cache, unless it is there.
    pub fn unpack(commit: String) -> Result<Commit, String> {
        let git = |words: &[&str]| run(Command::new("git").arg("-C").arg(repository()).args(words));
        let commit = format!("{commit}^{{commit}}");
        let name = git(&["rev-parse", "--verify", "--short", "--end-of-options", &commit])?;
        let name = name.trim().to_string();
        let folder = folder(&format!("commit-{name}"));
        if !folder.is_dir() {
            let room = empty_folder("archive")?;
            let archive = room.join("archive.tar");
            git(&["archive", "-o", &archive.to_string_lossy(), &name])?;
            run(Command::new("tar").arg("-xf").arg(&archive).arg("-C").arg(&room))?;
            // Cargo takes two packages of one name only if their versions differ, so that 0.1.0 becomes 90.1.0.
            let manifest = room.join("Cargo.toml");
            let text = read(&manifest)?.replacen("\nversion = \"", "\nversion = \"9", 1);
            write(&manifest, &text)?;
            fs::rename(&room, &folder).map_err(|error| failed(&folder, error))?;
        }
        Ok(Commit { name, folder })
    }
}
