//! The Rust crate `atoi_simd`, and the differences from it that docs/DIFFERENCES.md names.
//!
//! Two of them show here. The others need a text of more than 4294967295 digits, a debug build, or
//! vector instructions.

use torkettle_common::answer::Answer;
use torkettle_common::question::Question;
use torkettle_common::rules;

/// Whether the crate is compared in its portable configuration. Other processors than x86-64 have
/// vector instructions that the crate always uses.
pub const IS_PORTABLE: bool = cfg!(target_arch = "x86_64");

/// How an answer of the crate compares with one of this repository.
pub enum Kind {
    Same,
    /// It differs as a line of docs/DIFFERENCES.md says.
    Named(&'static str),
    Unnamed,
}

/// How the two answers compare. `rule` is the answer by the rules: a difference has a name only if
/// ours is that answer.
pub fn kind_of(
    question: &Question,
    text: &[u8],
    rule: &Answer,
    ours: &Answer,
    theirs: &Answer,
) -> Kind {
    let (expected, name) = expected(question, text);
    if ours == theirs {
        Kind::Same
    } else if ours != rule {
        Kind::Unnamed
    } else if *theirs == expected {
        Kind::Named(name)
    } else if !IS_PORTABLE {
        Kind::Named("an AVX2, SSE or Neon configuration")
    } else {
        Kind::Unnamed
    }
}

// Returns what the crate should answer, and the name of the difference that applies if our answer
// is different. The crate follows the rules, except for the two differences that show here.
fn expected(question: &Question, text: &[u8]) -> (Answer, &'static str) {
    let is_prefix = question.call.is_prefix();
    let (_, taken, body) = question.take_sign(text);
    let digits = body.iter().take_while(|byte| byte.is_ascii_digit()).count();
    let is_narrow = question.integer.bits() <= 32;
    let is_cut = is_narrow && is_prefix && !question.skip_zeroes && digits > 16;
    let read = if is_cut { &text[..taken + 16] } else { text };
    let answer = match rules::answer(question, read) {
        Answer::Value { negative, magnitude, count }
            if is_prefix && taken == 1 && text.starts_with(b"+") =>
        {
            Answer::Value { negative, magnitude, count: count - 1 }
        }
        answer => answer,
    };
    if is_cut {
        (answer, "a prefix of a type of up to 32 bits with more than 16 digits")
    } else {
        (answer, "parse_prefix counts a taken plus")
    }
}

#[cfg(test)]
mod tests {
    use super::{Kind, kind_of};
    use torkettle_common::answer::Answer;
    use torkettle_common::integer::Integer;
    use torkettle_common::question::{Call, Question};
    use torkettle_common::rules;

    // How an answer of ours to `parse_prefix::<u8, false, true>(text)` compares with one of theirs.
    fn compared(text: &[u8], ours: Answer, theirs: Answer) -> Kind {
        let (call, integer) = (Call::Prefix, Integer::U8);
        let question = Question { call, integer, skip_zeroes: false, skip_plus: true };
        kind_of(&question, text, &rules::answer(&question, text), &ours, &theirs)
    }

    #[test]
    fn a_named_difference_is_one_between_the_rules_and_the_original() {
        let value = |magnitude, count| Answer::value(false, magnitude, count);
        assert!(matches!(compared(b"12a", value(12, 2), value(12, 2)), Kind::Same));
        assert!(matches!(compared(b"+12a", value(12, 3), value(12, 2)), Kind::Named(_)));
        assert!(matches!(compared(b"+12a", value(13, 3), value(12, 2)), Kind::Unnamed));
        assert!(matches!(compared(b"12a", value(13, 2), value(12, 2)), Kind::Unnamed));
    }
}
