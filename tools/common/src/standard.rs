//! std's `str::parse`, with which both libraries are compared.

use crate::answer::Answer;
use crate::question::{Question, Sign};

/// Says whether an answer agrees with `str::parse`. A value must be the one that std reads from the
/// same bytes. If a whole parse that skips zeros and a plus returns an error, std must refuse the
/// same text. Std says nothing about the errors of other calls, so for these the function returns
/// `None`. `signed` is a minus and then the text.
pub fn agrees(question: &Question, answer: &Answer, text: &[u8], signed: &[u8]) -> Option<bool> {
    let before = usize::from(question.call.sign() == Sign::Minus);
    let text = if before == 1 { signed } else { text };
    let is_prefix = question.call.is_prefix();
    match *answer {
        Answer::Value { negative, magnitude, count } => {
            let end = if is_prefix { before + count } else { text.len() };
            let found = text.get(..end).and_then(|read| question.integer.parse(read));
            Some(found == Some((negative, magnitude)))
        }
        _ if question.skip_zeroes && question.skip_plus && !is_prefix => {
            Some(question.integer.parse(text).is_none())
        }
        _ => None,
    }
}
