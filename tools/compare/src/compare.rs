//! The comparison of the answers of our builds with the rules, with `str::parse`, with the
//! original, and with each other.

use crate::original::{self, Kind};
use crate::sides::Answers;
use std::collections::BTreeMap;
use std::fmt;
use std::time::{Duration, Instant};
use torkettle_common::Form;
use torkettle_common::answer::Answer;
use torkettle_common::question::Question;
use torkettle_common::random::Random;
use torkettle_common::{rules, standard, texts};

// The largest number of differences that are printed. All differences are counted.
const PRINTED: u64 = 20;

/// What is compared.
pub struct Sides {
    pub ours: Vec<Ours>,
    /// The Rust crate, if it is there.
    pub original: Option<Answers>,
}

/// One of the two libraries in one of our builds.
pub struct Ours {
    pub build: &'static str,
    pub form: Form,
    pub answers: Answers,
}

impl fmt::Display for Ours {
    fn fmt(&self, f: &mut fmt::Formatter<'_>) -> fmt::Result {
        write!(f, "{} of {}", self.form.name(), self.build)
    }
}

// With what an answer of ours is compared. `FirstBuild` is the same library in the first of our builds that has it.
#[derive(Clone, Copy)]
enum Other {
    Rules,
    Standard,
    Original,
    FirstBuild,
}

// Their names, in their order.
const OTHERS: [&str; 4] = ["the rules", "str::parse", "the original", "the kit's build"];

/// The result of a comparison.
pub struct Counts {
    // For each of ours and each other: how many answers were compared, and how many differed in a way that
    // docs/DIFFERENCES.md does not name.
    counts: Vec<[[u64; 2]; 4]>,
    // The differences from the Rust crate that docs/DIFFERENCES.md lists: the name of each, and how often it was found.
    named: BTreeMap<&'static str, u64>,
    time: Duration,
}

impl Counts {
    // Everything that was compared, or that differed.
    fn total(&self, column: usize) -> u64 {
        self.counts.iter().flatten().map(|count| count[column]).sum()
    }

    /// How many answers differed.
    pub fn differences(&self) -> u64 {
        self.total(1)
    }

    // Counts a comparison. Says whether a difference has to be printed.
    fn count(&mut self, ours: usize, other: Other, differs: bool) -> bool {
        let [compared, differences] = &mut self.counts[ours][other as usize];
        *compared += 1;
        *differences += u64::from(differs);
        differs && self.differences() <= PRINTED
    }

    /// Prints how many answers of each side were compared.
    pub fn print(&self, sides: &Sides) {
        for (ours, counts) in sides.ours.iter().zip(&self.counts) {
            println!("{ours}, compared with");
            for (other, [compared, differences]) in OTHERS.iter().zip(counts) {
                if *compared > 0 {
                    println!("    {other}: {compared} answers, {differences} differ");
                }
            }
        }
        for (name, times) in &self.named {
            println!("    {times} more differ as docs/DIFFERENCES.md says: {name}");
        }
        if sides.original.is_some() && !original::IS_PORTABLE {
            println!(
                "    the original is built with vector instructions, so it may answer otherwise"
            );
        }
        let (compared, differences) = (self.total(0), self.differences());
        let speed = compared as f64 / self.time.as_secs_f64() / 1e6;
        println!("{compared} comparisons, {speed:.1} million per second; {differences} differ");
    }
}

/// Asks every question about each of `texts` random texts, which depend only on `seed`.
pub fn compare(sides: &Sides, seed: u64, texts: u64) -> Counts {
    let questions = Question::all();
    let mut random = Random::new(seed);
    let counts = vec![[[0; 2]; 4]; sides.ours.len()];
    let mut counts = Counts { counts, named: BTreeMap::new(), time: Duration::ZERO };
    let mut signed = Vec::new();
    let from = Instant::now();
    for number in 1..=texts {
        signed.clear();
        signed.push(b'-');
        texts::push_text(&mut random, &mut signed);
        questions.iter().for_each(|question| ask(sides, question, &signed, &mut counts));
        if number % (texts / 20).max(1) == 0 {
            let (percent, [compared, differ]) =
                (100 * number / texts, [0, 1].map(|it| counts.total(it)));
            eprintln!("{percent:3} % {compared:>11} compared, {differ} differ");
        }
    }
    counts.time = from.elapsed();
    counts
}

// Asks one question. `signed` is a minus and then the text.
fn ask(sides: &Sides, question: &Question, signed: &[u8], counts: &mut Counts) {
    let text = &signed[1..];
    let expected = rules::answer(question, text);
    let original = sides.original.map(|answers| answers.of(Form::Words, question, text));
    let mut first = [None; 2];
    for (number, ours) in sides.ours.iter().enumerate() {
        let answer = ours.answers.of(ours.form, question, text);
        let mut count = |other, differs, theirs: Option<Answer>| {
            if counts.count(number, other, differs) {
                let (other, text) = (OTHERS[other as usize], text.escape_ascii());
                println!("{ours} differs from {other}: {question} on \"{text}\"");
                println!("    here  {answer:?}");
                theirs.iter().for_each(|theirs| println!("    there {theirs:?}"));
            }
        };
        count(Other::Rules, answer != expected, Some(expected));
        if let Some(agrees) = standard::agrees(question, &answer, text, signed) {
            count(Other::Standard, !agrees, None);
        }
        match &mut first[ours.form as usize] {
            Some(first) => count(Other::FirstBuild, answer != *first, Some(*first)),
            none => *none = Some(answer),
        }
        if let Some(original) = original {
            let kind = original::kind_of(question, text, &expected, &answer, &original);
            count(Other::Original, matches!(kind, Kind::Unnamed), Some(original));
            if let Kind::Named(name) = kind {
                *counts.named.entry(name).or_default() += 1;
            }
        }
    }
}
