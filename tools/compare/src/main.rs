//! Compares the answers of `atoi_simd` and its module `lanes`, built by the kit and as the Cargo
//! package, with the rules of docs/SPECIFICATION.md, with `str::parse`, with the Rust crate
//! `atoi_simd`, and with each other.
//!
//! `USAGE` lists the arguments. The status is 1 if an answer differs in a way that docs/DIFFERENCES.md does not name, 2
//! if something that was asked for cannot be done, and 0 otherwise.

mod compare;
mod kit;
mod original;
mod sides;

use std::process::ExitCode;
use torkettle_common::arguments::{self, Given};

// How the program is called: what `--help` prints.
const USAGE: &str = "\
cargo run --release -- [ARGUMENT..]
  --texts N           on how many texts answers are compared (200000)
  --seed N            which random texts are taken (1)
  --cpu CPU           build our library for a processor (x86-64-v2)
  --debug             build the package in debug, with checks for overflow
  --original FOLDER   take the original from FOLDER or FOLDER/atoi_simd, and not from crates.io
                      (the value of TORKETTLE_ORIGINAL)
Without the kit, only the Cargo package is compared.";

fn main() -> ExitCode {
    arguments::run(USAGE, |words| run(&Given::read(USAGE, words)?))
}

// Compares the answers, prints how many differ, and returns whether none does.
fn run(given: &Given) -> Result<bool, String> {
    let texts = given.value("--texts")?.unwrap_or(200_000);
    let seed = given.value("--seed")?.unwrap_or(1);
    let cpu = given.value("--cpu")?.unwrap_or(String::from("x86-64-v2"));
    println!("seed {seed}, {texts} texts");
    let sides = sides::open(&cpu, given.has("--debug"), given.value("--original")?)?;
    let counts = compare::compare(&sides, seed, texts);
    counts.print(&sides);
    Ok(counts.differences() == 0)
}
