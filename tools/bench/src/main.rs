//! Times the calls of the Cargo package and those of other libraries or of a commit, inlined in Rust, and the calls of
//! the C library from C++. Counts the instructions of those in Rust.
//!
//! `USAGE` lists the arguments. The status is 1 if a loop gives a wrong sum, 2 if something that was
//! asked for cannot be done, and 0 otherwise.

mod builds;
mod digits;
mod input;
mod jobs;
mod lists;
mod measure;
mod report;
mod table;
#[allow(dead_code)]
#[path = "../exports/texts.rs"]
mod texts;

use builds::{Commit, Layout};
use std::fs;
use std::process::{Command, ExitCode};
use std::rc::Rc;
use table::{Author, C, RUST, Reader, Table, Task, tables};
use torkettle_common::arguments::{self, Given};
use torkettle_common::cache::repository;
use torkettle_common::cargo::dependency;
use torkettle_common::command::{print_left_out, run};
use torkettle_common::original;

// How the program is called: what `--help` prints.
const USAGE: &str = "\
cargo run --release -- [ARGUMENT..]
  (no argument)       time everything
  --rust-only         only time the Cargo package and other libraries, inlined in Rust
  --c-only            only time the C library and std::from_chars, called from C++
  --count             only count the instructions of the calls in Rust (valgrind)
  --against COMMIT    only time or count the package and that of a commit, or with --c-only the C library and that of a
                      commit
  --list FILE         take the numbers of a file, one per line, in place of all lists
  --only TEXT         take only lists and jobs that have TEXT in their line, as 'parse u64 -- 16', 'real csv-cells u32',
                      'near-equal' or 'job'
  --lanes             time lanes of the package too
  --markdown          print each table once more, in Markdown
  --cpu CPU           build the package for a processor (x86-64 and x86-64-v3)
  --passes N          how often everything is timed (5)
  --original FOLDER   take the original from FOLDER or FOLDER/atoi_simd, and not from crates.io
                      (the value of TORKETTLE_ORIGINAL)";

// The processors that the package is built for if none is named. The original uses AVX2 at the second.
const PROCESSORS: [&str; 2] = ["x86-64", "x86-64-v3"];

// What everything is made of.
struct Bench {
    given: Given,
    passes: usize,
    commit: Option<Commit>,
    tasks: Vec<Rc<Task>>,
}

fn main() -> ExitCode {
    arguments::run(USAGE, |words| match words {
        // Valgrind runs the program in this way.
        [exports, cpu, words @ ..] if exports == "--exports" => {
            let (tables, layouts) = Bench::new(words)?.rust_tables(cpu)?;
            measure::call_exports(&tables, &layouts[0]);
            Ok(true)
        }
        _ => Ok(Bench::new(words)?.everything()? == 0),
    })
}

// Whether something is timed or counted in Rust, and whether in C++.
fn parts(given: &Given) -> Result<(bool, bool), String> {
    let [rust, c, count] = ["--rust-only", "--c-only", "--count"].map(|name| given.has(name));
    match [rust, c, count].iter().filter(|is_given| **is_given).count() {
        0 => Ok((true, !given.has("--against"))),
        1 => Ok((!c, c)),
        _ => Err(String::from("--rust-only, --c-only and --count exclude each other")),
    }
}

impl Bench {
    fn new(words: &[String]) -> Result<Bench, String> {
        let given = Given::read(USAGE, words)?;
        parts(&given)?;
        let passes = given.value("--passes")?.unwrap_or(5);
        if passes == 0 {
            return Err(String::from("--passes is at least 1"));
        }
        let commit = given.value("--against")?.map(Commit::unpack).transpose()?;
        let only: String = given.value("--only")?.unwrap_or_default();
        let tasks = lists::tasks(&only, given.value("--list")?)?;
        Ok(Bench { given, passes, commit, tasks })
    }

    // Does everything, and returns how many sums were wrong.
    fn everything(&self) -> Result<usize, String> {
        let (has_rust, has_c) = parts(&self.given)?;
        let cpu: Option<String> = self.given.value("--cpu")?;
        let processors = cpu.as_deref().map_or(PROCESSORS.to_vec(), |cpu| vec![cpu]);
        println!("timed or counted on {}", processor());
        let mut wrong = 0;
        for cpu in processors.into_iter().filter(|_| has_rust) {
            wrong += self.rust(cpu)?;
        }
        if has_c {
            match self.c() {
                Err(fault) if has_rust => print_left_out("the C library", &fault),
                of_c => wrong += of_c?,
            }
        }
        Ok(wrong)
    }

    // The readers in Rust, and the lines of a manifest that ask for their libraries.
    fn readers(&self, cpu: &str) -> Result<(Vec<Reader>, Vec<String>), String> {
        let has_lanes = self.given.has("--lanes");
        let features = if has_lanes { &["lanes"][..] } else { &[] };
        let package = |name, folder| dependency(name, "torkettle", folder, features);
        let other = match &self.commit {
            Some(commit) => Some(package("theirs", &commit.folder)),
            None => original::find(self.given.value("--original")?)?,
        };
        let (has_other, has_commit) = (other.is_some(), self.commit.is_some());
        let dependencies = [package("ours", repository())].into_iter().chain(other).collect();
        let version = run(Command::new("rustc").arg("--version"))?;
        let version = version.split_whitespace().nth(1).unwrap_or_default();
        let (original, standard) = (original::name(cpu), format!("str::parse, rustc {version}"));
        let theirs = self.commit.as_ref().map_or("", |commit| &commit.name);
        let mut readers = vec![
            Reader::new(Author::Ours, "the package", ["Ours", "ours", "@any @package"]),
            Reader::new(Author::Ours, "the package", ["OurLanes", "ours::lanes", "@any"]),
            Reader::new(Author::Theirs, theirs, ["Theirs", "theirs", "@any @package"]),
            Reader::new(Author::Theirs, theirs, ["TheirLanes", "theirs::lanes", "@any"]),
            Reader::new(Author::Other, &original, ["Original", "atoi_simd", "@any @split"]),
            Reader::new(Author::Other, &standard, ["Standard", "", "@any @split"]),
            Reader::new(Author::Other, "a loop over bytes", ["ByteLoop", "", "@any"]),
        ];
        readers.retain(|reader| match reader.author {
            _ if reader.code.ends_with("Lanes") && !has_lanes => false,
            Author::Ours => true,
            Author::Theirs => has_commit,
            Author::Other => !has_commit && (has_other || reader.library.is_empty()),
        });
        Ok((readers, dependencies))
    }

    fn rust_tables(&self, cpu: &str) -> Result<(Vec<Table>, Vec<Layout>), String> {
        let (readers, dependencies) = self.readers(cpu)?;
        let tables = tables(RUST, &readers, &self.tasks);
        let is_counted = self.given.has("--count");
        let layouts = builds::rust(&dependencies, &readers, cpu, &tables, is_counted)?;
        Ok((tables, layouts))
    }

    // Times or counts the loops in Rust, and returns how many sums were wrong.
    fn rust(&self, cpu: &str) -> Result<usize, String> {
        let (tables, layouts) = self.rust_tables(cpu)?;
        if tables.is_empty() {
            return Ok(0);
        }
        let place = format!("inlined in Rust, built for {cpu}");
        if !self.given.has("--count") {
            return Ok(self.time(&tables, &layouts, &place));
        }
        let figures = measure::count(cpu, &tables, &layouts[0])?;
        let place = format!("{place}, by callgrind");
        let print = |(table, figures): (_, &Vec<_>)| {
            report::print(table, figures, "instructions", &place, self.given.has("--markdown"))
        };
        Ok(tables.iter().zip(&figures).map(print).sum())
    }

    // Times the loops in C++, and returns how many sums were wrong.
    fn c(&self) -> Result<usize, String> {
        let version = run(Command::new("g++").arg("-dumpfullversion"))?;
        let standard = format!("g++ {}", version.trim());
        let ours = Reader::new(Author::Ours, "the C library", ["Ours", "", "@ours"]);
        let theirs = |commit: &Commit| Reader {
            object: 1,
            ..Reader::new(Author::Theirs, &commit.name, ["Ours", "", "@ours"])
        };
        let standard = Reader::new(Author::Other, &standard, ["Standard", "", "@standard"]);
        let other = self.commit.as_ref().map_or(standard, theirs);
        let folder = self.commit.as_ref().map(|commit| commit.folder.as_path());
        let repositories: Vec<_> = [repository()].into_iter().chain(folder).collect();
        let tables = tables(C, &[ours, other], &self.tasks);
        let layouts = builds::cpp(&repositories, &tables)?;
        Ok(self.time(&tables, &layouts, "from C++"))
    }

    fn time(&self, tables: &[Table], layouts: &[Layout], place: &str) -> usize {
        let time = |table: &Table| {
            let figures = measure::time(table, layouts, self.passes);
            report::print(table, &figures, "nanoseconds", place, self.given.has("--markdown"))
        };
        tables.iter().map(time).sum()
    }
}

// What the system calls the processor.
fn processor() -> String {
    let text = fs::read_to_string("/proc/cpuinfo").unwrap_or_default();
    let name = text.lines().find_map(|line| line.strip_prefix("model name")?.split_once(": "));
    name.map_or("an unknown processor", |(_, name)| name).to_string()
}

#[cfg(test)]
mod tests {
    use super::{Given, USAGE, parts};

    #[test]
    fn arguments_ask_for_parts() {
        let of = |words: &[&str]| {
            let words: Vec<String> = words.iter().copied().map(String::from).collect();
            parts(&Given::read(USAGE, &words).unwrap())
        };
        assert_eq!(of(&[]), Ok((true, true)));
        assert_eq!(of(&["--against", "HEAD"]), Ok((true, false)));
        assert_eq!(of(&["--count", "--against", "HEAD"]), Ok((true, false)));
        assert_eq!(of(&["--c-only", "--against", "HEAD"]), Ok((false, true)));
        assert!(of(&["--c-only", "--count"]).is_err());
    }
}
