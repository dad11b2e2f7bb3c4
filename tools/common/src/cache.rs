//! The repository, the folders outside it in which programs are built and kept, and what reads and writes files.

use std::env;
use std::fs;
use std::path::{Path, PathBuf};

/// The top of the repository that this program was compiled in.
pub fn repository() -> &'static Path {
    let top = Path::new(env!("CARGO_MANIFEST_DIR")).ancestors().nth(2);
    top.expect("the manifest is in tools/common")
}

/// A folder of the cache, which each checkout has one of. The folder may not exist.
pub fn folder(name: &str) -> PathBuf {
    let caches = env::var_os("XDG_CACHE_HOME")
        .map(PathBuf::from)
        .or_else(|| env::var_os("HOME").map(|home| PathBuf::from(home).join(".cache")))
        .unwrap_or_else(env::temp_dir);
    let place = repository().to_string_lossy().replace('/', "-");
    caches.join(format!("torkettle-tools{place}")).join(name)
}

/// Makes a folder of the cache that is empty, and returns it.
pub fn empty_folder(name: &str) -> Result<PathBuf, String> {
    let folder = folder(name);
    if folder.is_dir() {
        fs::remove_dir_all(&folder).map_err(|error| failed(&folder, error))?;
    }
    fs::create_dir_all(&folder).map_err(|error| failed(&folder, error))?;
    Ok(folder)
}

/// The message for a file or a folder that could not be read or written.
pub fn failed(path: &Path, error: std::io::Error) -> String {
    format!("{}: {error}", path.display())
}

/// The text of a file.
pub fn read(file: &Path) -> Result<String, String> {
    fs::read_to_string(file).map_err(|error| failed(file, error))
}

/// Writes a file that has another text, and makes its folder if there is none.
pub fn write(file: &Path, text: &str) -> Result<(), String> {
    if fs::read_to_string(file).is_ok_and(|old| old == text) {
        return Ok(());
    }
    if let Some(folder) = file.parent() {
        fs::create_dir_all(folder).map_err(|error| failed(folder, error))?;
    }
    fs::write(file, text).map_err(|error| failed(file, error))
}

/// What is in a folder, in the order of the names.
pub fn entries(folder: &Path) -> Result<Vec<PathBuf>, String> {
    let entries = fs::read_dir(folder).map_err(|error| failed(folder, error))?;
    let paths = entries.map(|entry| entry.map(|entry| entry.path()));
    let mut paths: Vec<PathBuf> =
        paths.collect::<Result<_, _>>().map_err(|error| failed(folder, error))?;
    paths.sort();
    Ok(paths)
}
