//! Compares the results of generated calls with the rules of `docs/SPECIFICATION.md`, which `tools/common`
//! states digit by digit, and with `str::parse`.
//!
//! `TORKETTLE_TEXTS` sets how many texts are generated. Every call, type and choice of flags is asked
//! about each of them.

use crate::ask::ask;
use torkettle_common::question::Question;
use torkettle_common::random::Random;
use torkettle_common::{rules, standard, texts};

// With 210 questions about each, these are more than five million results.
const TEXTS: usize = 25_000;

#[test]
fn results_are_those_of_the_rules() {
    let texts = texts::wanted(TEXTS);
    let questions = Question::all();
    let mut random = Random::new(55);
    let mut signed = Vec::new();
    for _ in 0..texts {
        // The text is all but the first byte. With that, it is what std reads for a negative number.
        signed.clear();
        signed.push(b'-');
        texts::push_text(&mut random, &mut signed);
        for question in &questions {
            check(question, &signed);
        }
    }
    println!("{} results of {texts} texts are those of the rules", texts * questions.len());
}

fn check(question: &Question, signed: &[u8]) {
    let text = &signed[1..];
    let found = ask(question, text);
    let shown = text.escape_ascii();
    assert_eq!(found, rules::answer(question, text), "{question} of \"{shown}\"");
    let agrees = standard::agrees(question, &found, text, signed);
    assert_ne!(agrees, Some(false), "{question} of \"{shown}\" and str::parse: {found:?}");
}
