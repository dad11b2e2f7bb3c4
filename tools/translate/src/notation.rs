//! Reads the notation of the grammar, which is explained there. That it is well formed shows in each run.

use crate::grammar::GRAMMAR;
use std::collections::HashMap;
use std::iter::Peekable;
use std::str::SplitWhitespace;
use std::sync::LazyLock;

/// What the rules of the grammar read, by their names.
pub static RULES: LazyLock<HashMap<&str, Form>> = LazyLock::new(|| {
    let lines = GRAMMAR.lines().filter(|line| !line.is_empty());
    lines.map(rule).collect()
});

/// How something is read, by a sign of the notation, or by `=` for what makes a node, `a` for the name of a rule, `A`
/// for that of a kind of tokens, and a space for what is read in turn.
pub struct Form {
    pub sign: char,
    pub text: &'static str,
    pub parts: Vec<Form>,
}

type Words = Peekable<SplitWhitespace<'static>>;

fn rule(line: &'static str) -> (&'static str, Form) {
    let mut words = line.split_whitespace();
    let (name, sign) = (words.next().unwrap_or_default(), words.next());
    let form = choice(&mut words.peekable());
    (name, if sign == Some("=") { node(name, form) } else { form })
}

fn node(name: &'static str, form: Form) -> Form {
    Form { sign: '=', text: name, parts: vec![form] }
}

// Reads alternatives up to a `)` or the end.
fn choice(words: &mut Words) -> Form {
    let mut forms = vec![sequence(words)];
    while words.next_if_eq(&"/").is_some() {
        forms.push(sequence(words));
    }
    joined('/', forms)
}

fn sequence(words: &mut Words) -> Form {
    let mut forms = Vec::new();
    while let Some(word) = words.next_if(|it| *it != "/" && !it.starts_with(')')) {
        forms.push(form(word, words));
    }
    joined(' ', forms)
}

fn joined(sign: char, mut parts: Vec<Form>) -> Form {
    if parts.len() == 1 { parts.remove(0) } else { Form { sign, text: "", parts } }
}

// Reads the form that begins with a word.
fn form(word: &'static str, words: &mut Words) -> Form {
    let first = word.chars().next().unwrap_or(' ');
    let operand = word.trim_start_matches(['&', '!', '<']);
    if operand.len() < word.len() {
        let operand = if operand.is_empty() { words.next().unwrap_or("END") } else { operand };
        return Form { sign: first, text: word, parts: vec![form(operand, words)] };
    }
    let body = word.trim_end_matches(['?', '*', ',']);
    let mut repeats = &word[body.len()..];
    let form = match body.split_once('\'') {
        Some((sign, text)) => {
            let sign = sign.chars().next().unwrap_or('\'');
            Form { sign, text: text.trim_end_matches('\''), parts: Vec::new() }
        }
        None if body.ends_with('(') => {
            let (name, form) = (body.trim_end_matches('('), choice(words));
            repeats = words.next().unwrap_or_default().trim_start_matches(')');
            if name.is_empty() { form } else { node(name, form) }
        }
        None => {
            let sign = if first.is_ascii_uppercase() { 'A' } else { 'a' };
            Form { sign, text: body, parts: Vec::new() }
        }
    };
    match repeats.chars().next() {
        Some(sign) => Form { sign, text: "", parts: vec![form] },
        None => form,
    }
}
