//! The rules of docs/SPECIFICATION.md once more, in plain Rust: what each call should answer, with
//! every number and place of an error.

use crate::answer::Answer;
use crate::question::Question;

/// What a call should answer.
pub fn answer(question: &Question, text: &[u8]) -> Answer {
    let (minus, taken, body) = question.take_sign(text);
    let bits = question.integer.bits();
    let digits = body.iter().take_while(|byte| byte.is_ascii_digit()).count();
    let zeros = body.iter().take_while(|&&byte| byte == b'0').count();
    let number = number(&body[..digits]);
    let skipped = if question.skip_zeroes { zeros } else { 0 };
    if digits == 0 {
        return Answer::Empty;
    }
    let exceeded = limits(question).filter(|&(limit, _)| digits - skipped > limit);
    if let Some((_, most)) = exceeded {
        let length = skipped + most.min(digits - skipped);
        return Answer::Size { length, place: taken + skipped };
    }
    let Some(number) = number.filter(|&number| number <= question.integer.bound(minus)) else {
        let dropped = if bits > 32 { skipped } else { dropped(question, digits, zeros) };
        return Answer::Overflow { place: taken + dropped };
    };
    if question.call.is_prefix() {
        return Answer::value(minus, number, taken + digits);
    }
    match (digits == body.len(), bits) {
        (true, _) => Answer::value(minus, number, 0),
        (false, 128) => Answer::Invalid128 { number, index: digits, place: taken },
        (false, _) => Answer::Invalid64 { number, index: digits, place: taken },
    }
}

// Returns the number that digits write, or `None` if it does not fit in 128 bits.
fn number(digits: &[u8]) -> Option<u128> {
    digits.iter().try_fold(0_u128, |number, &digit| {
        number.checked_mul(10)?.checked_add(u128::from(digit - b'0'))
    })
}

// Returns how many significant digits a number may have, and the largest number of them that `Size`
// reports. Returns `None` if there is no limit.
fn limits(question: &Question) -> Option<(usize, usize)> {
    match (question.integer.bits(), question.integer.is_signed()) {
        (128, _) => Some((39, 40)),
        (64, true) => Some((19, 24)),
        (64, false) => Some((20, 24)),
        _ if question.call.is_prefix() && !question.skip_zeroes => Some((16, 17)),
        _ => None,
    }
}

// Returns how many zeros the slice in `Overflow` leaves out, for a type of up to 32 bits. For a
// prefix with SKIP_ZEROES these are the leading zeros in whole blocks of 16 bytes, or all leading
// zeros if the block in which they end is full of digits. For other calls there are none.
fn dropped(question: &Question, digits: usize, zeros: usize) -> usize {
    if !question.call.is_prefix() || !question.skip_zeroes {
        0
    } else if digits / 16 > zeros / 16 {
        zeros
    } else {
        zeros / 16 * 16
    }
}
