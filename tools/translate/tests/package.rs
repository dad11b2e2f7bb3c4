//! Which files are read, what they export, what is written, and what `--check` compares.

use crate::TOP;
use std::fs;
use std::path::{Path, PathBuf};
use torkettle_translate::modules::CRATES;
use torkettle_translate::{c, compare, made, write};

const MADE: usize = CRATES.len() + 1; // and the module `text`

/// A folder with the sources of a package.
struct Package(PathBuf);

impl Package {
    // Each crate has one function, and `atoi_core` a module `text` besides.
    fn new(name: &str) -> Package {
        let folder = Path::new(env!("CARGO_TARGET_TMPDIR")).join(name);
        let _ = fs::remove_dir_all(&folder);
        let package = Package(folder);
        package.put("rust/src/lib.rs", "mod proved {}\npub use proved::atoi_simd::exported;");
        for name in CRATES {
            package.put(&format!("crates/{name}/src/lib.rt"), "pub fn a() -> u8 {\n    1\n}\n");
        }
        package.put("crates/atoi_simd/src/lib.rt", "pub fn exported() {}\n");
        package.put("crates/atoi_core/src/lib.rt", "mod text;\n");
        package.put("crates/atoi_core/src/text.rt", "fn size() -> u8 {\n    48\n}\n");
        package
    }

    fn put(&self, file: &str, content: impl AsRef<[u8]>) {
        let file = self.0.join(file);
        fs::create_dir_all(file.parent().unwrap()).unwrap();
        fs::write(file, content).unwrap();
    }

    fn fault(&self) -> String {
        made(&self.0).unwrap_err().to_string()
    }
}

// The number of files that are made, and the names of those that differ.
fn differing(package: &Package) -> (usize, Vec<PathBuf>) {
    let (made, differ) = compare(&package.0).unwrap();
    (made, differ.into_keys().collect())
}

#[test]
fn check_names_each_file_that_differs() {
    let package = Package::new("check");
    write(&package.0).unwrap();
    assert_eq!(differing(&package), (MADE, vec![]));
    let [other, text, fast, simd] =
        ["atoi_core/other.rs", "atoi_core/text.rs", "atoi_fast/mod.rs", "atoi_simd/mod.rs"]
            .map(|name| format!("rust/src/proved/{name}"));
    let read = |file: &str| fs::read_to_string(package.0.join(file)).unwrap();
    // One file has another byte, one a byte less, one is not there, and one should not be there.
    package.put(&text, read(&text).replace('8', "9"));
    package.put(&simd, read(&simd).trim_end());
    package.put(&other, "");
    fs::remove_file(package.0.join(&fast)).unwrap();
    let differ = [&other, &text, &fast, &simd].map(PathBuf::from).to_vec();
    assert_eq!(differing(&package), (MADE, differ));
    assert!(!package.0.join(fast).exists(), "--check writes");
    write(&package.0).unwrap();
    assert_eq!(differing(&package), (MADE, vec![]));
    assert!(!package.0.join(other).exists());
}

#[test]
fn a_refusal_names_the_file_and_the_line() {
    let package = Package::new("refusals");
    let file = "crates/atoi_core/src/text.rt";
    package.put(file, "fn b() {}\nfn c() { é }");
    assert_eq!(package.fault(), format!("{file}:2: `é` is not known here"));
    package.put(file, b"fn size() -> u8 {\n    b'\xFF'\n}\n");
    assert!(package.fault().starts_with(&format!("{file}: ")) && package.fault().contains("UTF-8"));
    package.put(file, "fn b() {}");
    package.put("rust/src/debug.rs", "\npub use super::proved;\n");
    assert!(package.fault().starts_with("rust/src/debug.rs:2: `proved`"));
}

#[test]
fn a_module_has_one_file_and_a_declaration() {
    let package = Package::new("one_file");
    package.put("crates/atoi_core/src/lib.rt", "mod text;\nmod deep;\n");
    package.put("crates/atoi_core/src/deep/text.rt", "fn size() -> u8 {\n    48\n}\n");
    assert_eq!(package.fault(), "crates/atoi_core/src/lib.rt:2: a module without a file");
    package.put("crates/atoi_core/src/deep.rt", "mod text;\n");
    let deep =
        "/* Made by .ci/translate from crates/atoi_core/src/deep.rt. Do not edit. */ mod text;\n";
    assert_eq!(made(&package.0).unwrap()[Path::new("rust/src/proved/atoi_core/deep.rs")], deep);
    package.put("crates/atoi_core/src/deep/mod.rt", "");
    assert_eq!(package.fault(), "crates/atoi_core/src/deep/mod.rt: no `mod` declares this module");
}

#[test]
fn other_files_change_nothing() {
    let package = Package::new("other_files");
    write(&package.0).unwrap();
    for file in ["text.rt~", "text.bak", "text.rt.orig", "#text.rt#", "text.rs", "text"] {
        package.put(&format!("crates/atoi_core/src/{file}"), "fn size() -> u8 {\n    49\n}\n");
    }
    for file in [".text.rt.swp", ".text.rt", "text.rt.swp", ".history/a.rt"] {
        package.put(&format!("crates/atoi_core/src/{file}"), b"\xFF\x00");
    }
    for file in [".debug.rs", ".old/debug.rs", "debug.rs~", "debug.orig"] {
        package.put(&format!("rust/src/{file}"), "pub use crate::proved::a;");
    }
    assert_eq!(differing(&package), (MADE, vec![]));
}

// What a compiler has in each file must be small, and functions that types do not change are there once.
#[test]
fn the_library_has_an_inline_part_and_the_rest() {
    let [(_, header), (_, source)] = c::made(Path::new(TOP), false).unwrap();
    for text in [&header, &source] {
        assert!(text.is_ascii());
        assert!(text.lines().all(|line| line.len() <= 120));
        assert!(!text.contains("/* @"));
    }
    for (head, counts) in [
        ("TK_HINTED uint64_t tk_value_by_product(", (1, 0)),
        ("TK_INLINE tk_option_pair_i64_size tk_quick_prefix_i8_i64(", (1, 0)),
        ("TK_INLINE tk_option_pair_u64_size tk_prefix_by_length_u64(", (1, 0)),
        ("TK_INLINE tk_option_pair_u8_size tk_prefix_by_length_u8(", (0, 0)),
        ("TK_INLINE tk_pair_size_size tk_fields_position(", (0, 1)),
        ("TK_INLINE tk_option_pair_u8_bytes tk_accepted_field_u8(", (0, 0)),
        ("TK_NOINLINE tk_result_u64 tk_whole_64(", (0, 1)),
        ("TK_FAR tk_pair_i64_size tk_long_signed_prefix_i64(", (1, 1)),
        ("TK_SYMBOL(tk_long_signed_prefix_i64);", (1, 0)),
        ("#undef TK_INLINE", (1, 0)),
    ] {
        assert_eq!((header.matches(head).count(), source.matches(head).count()), counts, "{head}");
    }
}
