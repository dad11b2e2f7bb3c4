//! The recorded calls of the original crate, as `crates/atoi_vectors` has them: each line is
//! `ANSWER | w CALL TYPE FLAGS TEXT`, with the original's answer in between where it differs.

use crate::ask::ask;
use crate::calls::AtoiSimdError;
use std::fs;
use std::str;
use torkettle_common::answer::Answer;
use torkettle_common::question::Question;

struct Row {
    answer: String,
    original: String,
    question: Question,
    text: Vec<u8>,
}

#[test]
fn each_recorded_call_has_its_answer() {
    for row in rows("original.rt", 665).into_iter().chain(rows("differences.rt", 55)) {
        let (found, shown) = (answer(&row.question, &row.text), row.text.escape_ascii());
        assert_eq!(found, row.answer, "{} of \"{shown}\"", row.question);
    }
}

// An error prints the text after the comma.
fn before_comma(answer: &str) -> Option<&str> {
    answer.split(',').next()
}

#[test]
fn the_original_counts_no_plus_and_reads_16_digits_of_a_narrow_prefix() {
    for Row { answer: ours, original, question, text } in rows("differences.rt", 55) {
        let is_narrow = question.integer.bits() <= 32 && !question.skip_zeroes;
        let body = text.strip_prefix(b"+").unwrap_or(&text);
        let longest = if is_narrow { 16 } else { usize::MAX };
        let text = &body[..body.len().min(longest)];
        assert_ne!(ours, original, "{}", text.escape_ascii());
        let found = answer(&question, text);
        assert_eq!(before_comma(&found), before_comma(&original), "{}", text.escape_ascii());
    }
}

// The rows of a file, of which there are `count`.
fn rows(name: &str, count: usize) -> Vec<Row> {
    let file = format!("{}/crates/atoi_vectors/src/{name}", env!("CARGO_MANIFEST_DIR"));
    let text = fs::read_to_string(file).expect("the file of the recorded calls can be read");
    let is_answer = |line: &&str| line.starts_with("ok ") || line.starts_with("err ");
    let rows: Vec<Row> =
        text.lines().filter(is_answer).map(|line| row(line).expect(line)).collect();
    assert_eq!(rows.len(), count, "rows in {name}");
    rows
}

fn row(line: &str) -> Option<Row> {
    let (answer, rest) = line.split_once(" | ")?;
    let (original, row) = rest.rsplit_once(" | ").unwrap_or((answer, rest));
    let row = unescaped(row.strip_prefix("w ")?)?;
    let text = row.splitn(4, |byte| *byte == b' ').nth(3)?;
    let asked = str::from_utf8(&row[..row.len() - text.len() - 1]).ok()?;
    let is_asked = |question: &Question| {
        let name = question.to_string();
        name == asked || name.strip_prefix("parse_") == Some(asked)
    };
    Some(Row {
        answer: answer.to_string(),
        original: original.to_string(),
        question: Question::all().into_iter().find(is_asked)?,
        text: text.to_vec(),
    })
}

// Returns the bytes of a text in which some are written as `\xNN`.
fn unescaped(text: &str) -> Option<Vec<u8>> {
    let mut parts = text.split("\\x");
    let mut bytes = parts.next()?.as_bytes().to_vec();
    for part in parts {
        bytes.push(u8::from_str_radix(part.get(..2)?, 16).ok()?);
        bytes.extend_from_slice(&part.as_bytes()[2..]);
    }
    Some(bytes)
}

// What the row of a call says that it answers.
fn answer(question: &Question, text: &[u8]) -> String {
    let error = match ask(question, text) {
        Answer::Value { negative, magnitude, count } => {
            let sign = if negative { "-" } else { "" };
            let length =
                if question.call.is_prefix() { format!(" {count}") } else { String::new() };
            return format!("ok {sign}{magnitude}{length}");
        }
        Answer::Empty => AtoiSimdError::Empty,
        Answer::Size { length, place } => AtoiSimdError::Size(length, &text[place..]),
        Answer::Overflow { place } => AtoiSimdError::Overflow(&text[place..]),
        Answer::Invalid64 { number, index, place } => {
            AtoiSimdError::Invalid64(number as u64, index, &text[place..])
        }
        Answer::Invalid128 { number, index, place } => {
            AtoiSimdError::Invalid128(number, index, &text[place..])
        }
        Answer::Unlike(raw) => panic!("{question}: {raw:?}"),
    };
    format!("err {error}")
}
