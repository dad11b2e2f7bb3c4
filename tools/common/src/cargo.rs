//! Crates that this program writes to the cache, and that cargo builds there. They need no network if each crate that
//! they use is in a folder.

use crate::cache::{folder, write};
use crate::command::run;
use crate::object::Object;
use std::hash::{DefaultHasher, Hash, Hasher};
use std::path::Path;
use std::process::Command;

/// The line of a manifest that asks for a package in a folder, under the name that the source uses.
pub fn dependency(name: &str, package: &str, folder: &Path, features: &[&str]) -> String {
    let path = folder.display();
    format!("{name} = {{ package = \"{package}\", path = \"{path}\", features = {features:?} }}")
}

/// A crate of which cargo makes a shared object.
#[derive(Hash, Default)]
pub struct Generated {
    /// The lines of the manifest that ask for other crates.
    pub dependencies: Vec<String>,
    /// The name and the text of each file. One is `lib.rs`.
    pub files: Vec<(&'static str, String)>,
    /// The flags of rustc.
    pub flags: String,
    /// Whether it is built without optimisation, and with checks for overflow.
    pub is_debug: bool,
}

impl Generated {
    /// Builds it, if cargo finds that something changed, and loads it. Each crate has its own folder.
    pub fn open(&self, name: &str) -> Result<Object, String> {
        let mut hasher = DefaultHasher::new();
        self.hash(&mut hasher);
        let folder = folder(&format!("{name}-{:016x}", hasher.finish()));
        write(&folder.join("Cargo.toml"), &self.manifest())?;
        for (name, text) in &self.files {
            write(&folder.join("src").join(name), text)?;
        }
        let (profile, options) = match self.is_debug {
            true => ("debug", vec![]),
            false => ("release", vec!["--release"]),
        };
        let target = folder.join("target");
        let mut cargo = Command::new("cargo");
        cargo.args(["build", "--quiet"]).args(options).current_dir(&folder);
        cargo.env("CARGO_TARGET_DIR", &target).env("CARGO_NET_RETRY", "0");
        run(cargo.env("RUSTFLAGS", &self.flags))?;
        Object::open(&target.join(profile).join("libtimed.so"))
    }

    fn manifest(&self) -> String {
        let dependencies = self.dependencies.join("\n");
        format!(
            "[package]\nname = \"timed\"\nversion = \"0.1.0\"\nedition = \"2024\"\n\n\
             [lib]\ncrate-type = [\"cdylib\"]\n\n[profile.release]\ncodegen-units = 256\n\n\
             [workspace]\n\n[dependencies]\n{dependencies}\n"
        )
    }
}
