//! Exports a single function, which makes any call of a Rust crate with the interface of the
//! original. `tools/compare` and `rust/tests/rules.rs` have it as a module beside `calls`, which is the crate or its
//! module `lanes`.

use crate::calls::{self, AtoiSimdError, Parse, ParseNeg};
use torkettle_common::answer::{Answer, RawAnswer};
use torkettle_common::integer::{Bits, Integer};
use torkettle_common::question::{Call, Question};

/// Writes to `answer` what one call returns for a text. `call` and `integer` are the numbers of a
/// `Call` and of an `Integer`. The first argument has no meaning here.
///
/// # Safety
/// As many bytes as `length` says must be readable, and `answer` must be writable.
#[unsafe(no_mangle)]
pub unsafe extern "C" fn torkettle_answer(
    _: bool,
    call: u32,
    integer: u32,
    skip_zeroes: bool,
    skip_plus: bool,
    text: *const u8,
    length: usize,
    answer: *mut RawAnswer,
) {
    let question = Question {
        call: Call::numbered(call),
        integer: Integer::ALL[integer as usize],
        skip_zeroes,
        skip_plus,
    };
    let text = unsafe { std::slice::from_raw_parts(text, length) };
    unsafe { answer.write(ask(&question, text).into()) };
}

/// Returns what a call returns for a text.
pub fn ask(question: &Question, text: &[u8]) -> Answer {
    match question.integer {
        Integer::U8 => every::<u8>(question, text),
        Integer::I8 => signed::<i8>(question, text),
        Integer::U16 => every::<u16>(question, text),
        Integer::I16 => signed::<i16>(question, text),
        Integer::U32 => every::<u32>(question, text),
        Integer::I32 => signed::<i32>(question, text),
        Integer::U64 => every::<u64>(question, text),
        Integer::I64 => signed::<i64>(question, text),
        Integer::U128 => every::<u128>(question, text),
        Integer::I128 => signed::<i128>(question, text),
        Integer::Usize => every::<usize>(question, text),
        Integer::Isize => signed::<isize>(question, text),
    }
}

#[allow(deprecated)]
fn every<T: Parse + Bits>(question: &Question, text: &[u8]) -> Answer {
    let Question { call, skip_zeroes, skip_plus, .. } = *question;
    match (call, skip_zeroes, skip_plus) {
        (Call::Parse, false, false) => whole(calls::parse::<T, false, false>(text), text),
        (Call::Parse, false, true) => whole(calls::parse::<T, false, true>(text), text),
        (Call::Parse, true, false) => whole(calls::parse::<T, true, false>(text), text),
        (Call::Parse, true, true) => whole(calls::parse::<T, true, true>(text), text),
        (Call::Pos, false, _) => whole(calls::parse_pos::<T, false>(text), text),
        (Call::Pos, true, _) => whole(calls::parse_pos::<T, true>(text), text),
        (Call::Prefix, false, false) => prefix(calls::parse_prefix::<T, false, false>(text), text),
        (Call::Prefix, false, true) => prefix(calls::parse_prefix::<T, false, true>(text), text),
        (Call::Prefix, true, false) => prefix(calls::parse_prefix::<T, true, false>(text), text),
        (Call::Prefix, true, true) => prefix(calls::parse_prefix::<T, true, true>(text), text),
        (Call::PrefixPos, false, _) => prefix(calls::parse_prefix_pos::<T, false>(text), text),
        (Call::PrefixPos, true, _) => prefix(calls::parse_prefix_pos::<T, true>(text), text),
        (Call::Skipped, _, _) => whole(calls::parse_skipped::<T>(text), text),
        (Call::Any, _, _) => prefix(calls::parse_any::<T>(text), text),
        (Call::AnyPos, _, _) => prefix(calls::parse_any_pos::<T>(text), text),
        (Call::Neg | Call::PrefixNeg | Call::AnyNeg, _, _) => Answer::Unlike(RawAnswer::unlike()),
    }
}

#[allow(deprecated)]
fn signed<T: Parse + ParseNeg + Bits>(question: &Question, text: &[u8]) -> Answer {
    match (question.call, question.skip_zeroes) {
        (Call::Neg, false) => whole(calls::parse_neg::<T, false>(text), text),
        (Call::Neg, true) => whole(calls::parse_neg::<T, true>(text), text),
        (Call::PrefixNeg, false) => prefix(calls::parse_prefix_neg::<T, false>(text), text),
        (Call::PrefixNeg, true) => prefix(calls::parse_prefix_neg::<T, true>(text), text),
        (Call::AnyNeg, _) => prefix(calls::parse_any_neg::<T>(text), text),
        _ => every::<T>(question, text),
    }
}

fn whole<T: Bits>(parsed: Result<T, AtoiSimdError<'_>>, text: &[u8]) -> Answer {
    prefix(parsed.map(|value| (value, 0)), text)
}

fn prefix<T: Bits>(parsed: Result<(T, usize), AtoiSimdError<'_>>, text: &[u8]) -> Answer {
    // Compares addresses. Returns how many bytes of the text come before an error's slice, or
    // `None` if the slice is not the rest of the text.
    let place = |slice: &[u8]| {
        let place = text.len().checked_sub(slice.len())?;
        (text[place..].as_ptr() == slice.as_ptr()).then_some(place)
    };
    let answer = match parsed {
        Ok((value, count)) => {
            let (negative, magnitude) = value.parts();
            Some(Answer::Value { negative, magnitude, count })
        }
        Err(AtoiSimdError::Empty) => Some(Answer::Empty),
        Err(AtoiSimdError::Size(length, slice)) => {
            place(slice).map(|place| Answer::Size { length, place })
        }
        Err(AtoiSimdError::Overflow(slice)) => place(slice).map(|place| Answer::Overflow { place }),
        Err(AtoiSimdError::Invalid64(number, index, slice)) => {
            let number = u128::from(number);
            place(slice).map(|place| Answer::Invalid64 { number, index, place })
        }
        Err(AtoiSimdError::Invalid128(number, index, slice)) => {
            place(slice).map(|place| Answer::Invalid128 { number, index, place })
        }
    };
    answer.unwrap_or(Answer::Unlike(RawAnswer::unlike()))
}
