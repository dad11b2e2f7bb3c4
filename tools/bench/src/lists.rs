//! The lists that are timed: of real files, near-equal ones, that of the user, and random ones.

use crate::digits::Digits;
use crate::input::Input;
use crate::jobs;
use crate::table::Task;
use std::path::PathBuf;
use std::rc::Rc;
use torkettle_common::cache::{entries, read, repository};
use torkettle_common::integer::Integer::{self, I16, I32, I64, U8, U32, U64, U128};
use torkettle_common::random::Random;

// A list of a file is read as the first of these types that holds all its numbers, and as the last.
const TYPES: [Integer; 4] = [U32, I32, U64, I64];

/// The list of a file or the text of a job has at least so many numbers: more than a branch predictor remembers.
pub const LEAST: usize = 100_000;

// A file is repeated in blocks of so many numbers. Within a block, they have the order of the file.
const BLOCK: usize = 64;

// How many numbers a random list has.
const COUNT: usize = 16_384;

// Chooses a random number.
type Number = fn(&mut Random) -> usize;

// Near-equal lists: random numbers of which most have the same number of digits. In the last, one in 20 has two.
const NEAR_EQUAL: [(&str, Number); 6] = [
    ("0-99", |random| random.below(100)),
    ("0-999", |random| random.below(1000)),
    ("0-9999", |random| random.below(10_000)),
    ("0-99999", |random| random.below(100_000)),
    ("all-of-u32", |random| random.below(1 << 32)),
    ("95%-three-digits", |random| match random.one_in(20) {
        true => 10 + random.below(90),
        false => 100 + random.below(900),
    }),
];

// The random lists of calls, `c` of all from C++, with their types and flags (`z` if zeros are skipped, and `p` if a
// plus is): one for each of the following texts, which say how many digits the numbers have. About half of the numbers
// of a signed type are negative.
const RANDOM: [(&str, Integer, &str, &str); 23] = [
    ("parse", U8, "--", "1-3 1 2 3"),
    ("parse", U32, "--", "1-5 1-9 log 1*80,2*14,3*4,4-9*2 1*50,2-9*50 1 2 3 4 5 8 10"),
    ("parse", I32, "zp", "1-9"),
    ("parse", U64, "--", "1-5 1-19 log 1 2 3 4 5 8 10 13 16 19 20"),
    ("parse", I64, "--", "1-9 1-18 8 13 19"),
    ("parse", I64, "zp", "1-9 1*80,2*14,3*4,4-9*2"),
    ("parse", U128, "--", "1-38 16"),
    ("prefix", U8, "--", "1-3 1 2 3"),
    ("prefix", I16, "--", "1-4"),
    ("prefix", U32, "--", "1-5 log 1 2 3 4 5 8 10"),
    ("prefix", U32, "zp", "1-9"),
    ("prefix", U64, "--", "1-5 1-19 log 10|13 1 2 3 4 5 8 10 13 16 19 20"),
    ("prefix", U64, "zp", "1-19"),
    ("prefix", I64, "--", "8 13 16 19"),
    ("prefix", I64, "zp", "1-9"),
    ("prefix", U128, "--", "1-38 16"),
    ("column", U8, "zp", "1 2 3"),
    ("column", U32, "zp", "1-5 1-9 log 1*80,2*14,3*4,4-9*2 1*50,2-9*50 1 2 3 4"),
    ("column", U64, "zp", "1-19 1 2 3 4 5 8 10 13 16 19 20"),
    ("column", I64, "zp", "1-9 1-18 8 13"),
    ("c", U32, "--", "1-5 1-9"),
    ("c", U64, "--", "1-19 1 2 3 4 8 13 16"),
    ("c", I64, "--", "1-9 1-18"),
];

/// The lists and jobs of the repository that have a text in their line, or the list of the user alone.
pub fn tasks(only: &str, list: Option<PathBuf>) -> Result<Vec<Rc<Task>>, String> {
    let (kind, files) = match list {
        Some(file) => ("list", vec![file]),
        None => ("real", entries(&repository().join("tools/bench/real"))?),
    };
    let mut tasks = Vec::new();
    for file in files.iter().filter(|it| kind == "list" || it.extension() != Some("md".as_ref())) {
        let name = file.file_stem().unwrap_or_default().to_string_lossy();
        let numbers: Vec<String> = read(file)?.lines().map(String::from).collect();
        tasks.extend(as_types(kind, &name, &numbers, only)?);
    }
    if kind == "real" {
        for (name, number) in NEAR_EQUAL {
            let random = &mut Random::new(1);
            let numbers: Vec<String> = (0..LEAST).map(|_| number(random).to_string()).collect();
            tasks.extend(as_types("near-equal", name, &numbers, only)?);
        }
        tasks.extend(random(only));
        tasks.extend(jobs::tasks(only));
    }
    match tasks.is_empty() {
        true => Err(String::from("no list and no job has what --only says")),
        false => Ok(tasks.into_iter().map(Rc::new).collect()),
    }
}

// A list as each type as which it is read, if the line has a text.
fn as_types(
    kind: &'static str,
    name: &str,
    numbers: &[String],
    only: &str,
) -> Result<Vec<Task>, String> {
    let holds = |it: &Integer| numbers.iter().all(|number| it.parse(number.as_bytes()).is_some());
    let is_number = |line: &String| [U64, I64].iter().any(|it| it.parse(line.as_bytes()).is_some());
    let fault = match numbers.iter().position(|line| !is_number(line)) {
        _ if numbers.is_empty() => format!("{name} is empty"),
        Some(at) => format!("{name}: line {} is no number of 64 bits", at + 1),
        None => format!("{name}: no type holds the numbers"),
    };
    let own = TYPES.into_iter().find(|it| holds(it) && !numbers.is_empty()).ok_or(fault)?;
    let line = |integer: &Integer| format!("{kind} {name} {}", integer.name());
    let is_read = |it: &Integer| line(it).contains(only) && (*it == own || *it == I64 && holds(it));
    let task = |integer: Integer| {
        let groups = [("own types", integer == own), ("i64", integer == I64)];
        let groups = groups.into_iter().filter(|(_, is_in)| *is_in);
        Task {
            kind,
            line: line(&integer),
            groups: groups.map(|(group, _)| format!("{kind}, {group}")).collect(),
            words: words(integer, "zp"),
            input: Input::new(&repeated(numbers), integer, false),
        }
    };
    Ok(TYPES.into_iter().filter(is_read).map(task).collect())
}

// The numbers again and again, in blocks that are shuffled.
fn repeated(numbers: &[String]) -> Vec<String> {
    let random = &mut Random::new(1);
    let times = LEAST.div_ceil(numbers.len());
    let mut blocks: Vec<&[String]> = (0..times).flat_map(|_| numbers.chunks(BLOCK)).collect();
    for left in (2..=blocks.len()).rev() {
        blocks.swap(left - 1, random.below(left));
    }
    blocks.concat()
}

// The random lists. From C++, each is read as slices, and as starts of texts.
fn random(only: &str) -> Vec<Task> {
    let mut tasks = Vec::new();
    for (call, integer, flags, texts) in RANDOM {
        for digits in texts.split(' ') {
            let line = format!("{call} {} {flags} {digits}", integer.name());
            let digits = Digits::new(digits);
            let kinds = match call {
                "c" => &[("c", false), ("starts", true)][..],
                "prefix" => &[("prefix", true)],
                call => &[(call, false)],
            };
            for (kind, are_starts) in kinds.iter().filter(|_| line.contains(only)) {
                let random = &mut Random::new(1);
                let number = |_| digits.number(integer.is_signed(), random);
                let numbers: Vec<String> = (0..COUNT).map(number).collect();
                let input = Input::new(&numbers, integer, *are_starts);
                let (line, groups) = (line.clone(), vec![digits.group().to_string()]);
                tasks.push(Task { kind, line, groups, words: words(integer, flags), input });
            }
        }
    }
    tasks
}

// What the codes of loops say of a type and flags.
fn words(integer: Integer, flags: &str) -> Vec<(&'static str, String)> {
    let (zeroes, plus) = (flags.starts_with('z'), flags.ends_with('p'));
    let unsigned = if integer.is_signed() { "" } else { "u" };
    vec![
        ("$type", integer.name().to_string()),
        ("$flags", format!("{zeroes}, {plus}")),
        ("$c", format!("{unsigned}int{}_t", integer.bits())),
    ]
}

#[cfg(test)]
mod tests {
    use super::{BLOCK, COUNT, LEAST, as_types, random, repeated, tasks};

    #[test]
    fn types_of_lists() {
        let list = |numbers: [&str; 2]| as_types("real", "name", &numbers.map(String::from), "");
        let types = |numbers: [&str; 2]| {
            let lists = list(numbers).unwrap().into_iter();
            lists.map(|list| list.words[0].1.clone()).collect::<Vec<_>>()
        };
        assert_eq!(types(["0", "4294967295"]), ["u32", "i64"]);
        assert_eq!(types(["-1", "2147483647"]), ["i32", "i64"]);
        assert_eq!(types(["-1", "2147483648"]), ["i64"]);
        assert_eq!(types(["007", "18446744073709551615"]), ["u64"]);
        let fault = |numbers| list(numbers).map(|_| ()).unwrap_err();
        assert_eq!(fault(["-1", "9223372036854775808"]), "name: no type holds the numbers");
        assert_eq!(fault(["1", "1.5"]), "name: line 2 is no number of 64 bits");
        assert!(as_types("real", "name", &[], "").is_err());
    }

    #[test]
    fn lists_of_the_repository() {
        let lines = |only| -> Vec<String> {
            tasks(only, None).unwrap().iter().map(|task| task.line.clone()).collect()
        };
        assert_eq!(lines("real csv-cells"), ["real csv-cells u32", "real csv-cells i64"]);
        assert_eq!(lines("all-of-u32 i64"), ["near-equal all-of-u32 i64"]);
        assert_eq!(lines("job ipv4"), ["job ipv4"]);
        assert_eq!(lines("c u64 -- 13"), ["c u64 -- 13"; 2]);
    }

    #[test]
    fn types_hold_the_numbers_of_random_lists() {
        assert!(random("").iter().all(|task| task.input.count == COUNT));
    }

    #[test]
    fn repeated_numbers_keep_their_frequencies_and_blocks() {
        let numbers: Vec<String> = (0..1000).map(|number: usize| number.to_string()).collect();
        let values: Vec<usize> = repeated(&numbers).iter().map(|it| it.parse().unwrap()).collect();
        assert!(values.len() >= LEAST);
        let count = |value| values.iter().filter(|it| **it == value).count();
        assert_eq!([count(0), count(999)], [values.len() / numbers.len(); 2]);
        let runs: Vec<&[usize]> = values.chunk_by(|one, next| one + 1 == *next).collect();
        assert!(runs.len() > 1000 && runs.iter().all(|run| run[0] % BLOCK == 0));
    }
}
