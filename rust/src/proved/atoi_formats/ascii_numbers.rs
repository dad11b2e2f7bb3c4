/* Made by .ci/translate from crates/atoi_formats/src/ascii_numbers.rt. Do not edit. */ //! A number as most texts write it, with an error that does not borrow from the text.
// ghost use Rattle.std.specs.Prelude.{◌≡◌, ◌+◌, ◌<◌, ◌≤◌, ℕ, ℤ, [], true, false, length, IfOk, OnErr, Err};
// ghost use Rattle.atoi_core.specs.Answer.{parse_answer};
// ghost use Rattle.atoi_core.specs.Digit.{decimal_table};
// ghost use Rattle.atoi_core.specs.Refusal.{refusal_of};
// ghost use Rattle.atoi_core.specs.Run.{run_len};
// ghost use Rattle.atoi_core.specs.Text.{TextWrites, PrefixWrites};
// ghost use Rattle.atoi_formats.specs.Ascii.{FailsIff, HasByteAfter, HasNoDigit, IsOutOfRange, IsWholeFault, IsPrefixFault, int_error, range_fault, wrong_byte, error_of_whole, error_of_prefix};

use crate::proved::atoi_formats::int_error::{Fault, IntError};
use crate::proved::atoi_core::take_sign;
use crate::proved::atoi_simd::laws::{one_number, prefixes_and_rests};
use crate::proved::atoi_simd::{AtoiSimdError, Parse, parse, parse_prefix};

/// Parses all of `text` as a number: an optional sign, then one or more digits. The sign is a `+`, or a `-`
/// if `T` is signed.
///
/// ```
/// use torkettle::from_ascii;
///
/// assert_eq!(from_ascii::<u16>(b"8080"), Ok(8080));
/// assert_eq!(from_ascii::<i8>(b"-0042"), Ok(-42));
/// assert_eq!(from_ascii::<u8>(b"256").unwrap_err().to_string(), "number out of range");
/// assert_eq!(from_ascii::<u8>(b"12x").unwrap_err().to_string(), "unexpected byte at byte 2");
/// ```
///
/// **Proved:** the result is the number that `text` spells, or an error if and only if `text` spells no
/// number in range. The error is
/// [as specified](crate::specification#numbers-and-errors-asciiantt-in-atoi_formats).
///
/// # Errors
///
/// The [kind](IntError::kind) is `Empty` if `text` is empty, `PosOverflow` or `NegOverflow` if the digits
/// after the sign are out of range, and `InvalidDigit` otherwise.
#[inline(always)]
pub fn from_ascii<T: Parse>(text: &[u8]) -> Result<T, IntError>
    // ensures some { IfOk result (λ number. TextWrites T.int_type true text.now (T.number number)) }
    // ensures only { IfOk result (λ found. (number : ℤ)
    //     → TextWrites T.int_type true text.now number → number ≡ T.number found) }
    // ensures refused { OnErr result ((number : ℤ) → ¬ TextWrites T.int_type true text.now number) }
    // ensures empty { FailsIff result Fault.Empty (λ offset. (text.now ≡ []) × (offset ≡ 0)) }
    // ensures no_digit { FailsIff result Fault.NoDigit (λ offset.
    //     HasNoDigit T.int_type text.now offset × (0 < length text.now)) }
    // ensures unexpected_byte { FailsIff result Fault.UnexpectedByte (λ offset.
    //     HasByteAfter T.int_type text.now offset) }
    // ensures too_large { FailsIff result Fault.TooLarge (λ offset.
    //     IsOutOfRange T.int_type false text.now × (offset ≡ 0)) }
    // ensures too_small { FailsIff result Fault.TooSmall (λ offset.
    //     IsOutOfRange T.int_type true text.now × (offset ≡ 0)) }
{
    one_number::<T>();
    match parse::<T, true, true>(text) {
        Ok(number) => Ok(number),
        Err(cause) => Err(whole_error::<T>(text, cause)),
    }
}

/// Like [`from_ascii`], but parses the number at the start of `text`, whatever follows its digits. Returns
/// the number and its length in bytes, a sign and leading zeros included.
///
/// ```
/// use std::num::IntErrorKind;
/// use torkettle::from_ascii_prefix;
///
/// assert_eq!(from_ascii_prefix::<u16>(b"8080/tcp"), Ok((8080, 4)));
/// let kind = |text| from_ascii_prefix::<i32>(text).unwrap_err().kind();
/// assert_eq!(kind(b"-"), IntErrorKind::Empty);
/// assert_eq!(kind(b"-x"), IntErrorKind::InvalidDigit);
/// ```
///
/// **Proved:** the result is the number that the bytes up to its length spell, where no digit follows, or
/// an error if and only if `text` begins with no number in range. The error is
/// [as specified](crate::specification#numbers-and-errors-asciiantt-in-atoi_formats).
///
/// # Errors
///
/// The [kind](IntError::kind) is `Empty` if `text` is empty or only a sign that `T` accepts: more input may help. It
/// is `InvalidDigit` if another byte is where a digit must be, and `PosOverflow` or `NegOverflow` if the
/// digits are out of range.
#[inline(always)]
pub fn from_ascii_prefix<T: Parse>(text: &[u8]) -> Result<(T, usize), IntError>
    // ensures some { IfOk result (λ found.
    //     PrefixWrites (TextWrites T.int_type true) text.now (T.number found.0) found.1) }
    // ensures within { IfOk result (λ found. found.1 ≤ length text.now) }
    // ensures only { IfOk result (λ found. (number : ℤ) (count : ℕ)
    //     → PrefixWrites (TextWrites T.int_type true) text.now number count
    //     → (number ≡ T.number found.0) × (count ≡ found.1)) }
    // ensures refused { OnErr result ((number : ℤ) (count : ℕ)
    //     → ¬ PrefixWrites (TextWrites T.int_type true) text.now number count) }
    // ensures empty { FailsIff result Fault.Empty (λ offset.
    //     HasNoDigit T.int_type text.now offset × (offset ≡ length text.now)) }
    // ensures no_digit { FailsIff result Fault.NoDigit (λ offset.
    //     HasNoDigit T.int_type text.now offset × (offset < length text.now)) }
    // ensures unexpected_byte { FailsIff result Fault.UnexpectedByte (λ offset. ⊥) }
    // ensures too_large { FailsIff result Fault.TooLarge (λ offset.
    //     IsOutOfRange T.int_type false text.now × (offset ≡ 0)) }
    // ensures too_small { FailsIff result Fault.TooSmall (λ offset.
    //     IsOutOfRange T.int_type true text.now × (offset ≡ 0)) }
{
    prefixes_and_rests::<T>();
    match parse_prefix::<T, true, true>(text) {
        Ok(found) => Ok(found),
        Err(_) => Err(prefix_error::<T>(text)),
    }
}

// Returns why `text` is no number, where `cause` is what `parse` returned. The cold function gets only a
// `bool` of it: with the slice in it, the code for numbers is slower.
#[inline(always)]
fn whole_error<T: Parse>(text: &[u8], cause: AtoiSimdError<'_>) -> IntError
    // requires { parse_answer T.int_type true true text.now ≡ Err (refusal_of cause) }
    // ensures { IsWholeFault T.int_type text.now result.fault result.offset }
{
    let is_over = matches!(cause, AtoiSimdError::Size(..) | AtoiSimdError::Overflow(_));
    refused(T::SIGNED, is_over, text)
}

// Returns why `text` begins with no number.
#[inline(always)]
fn prefix_error<T: Parse>(text: &[u8]) -> IntError
    // requires { (number : ℤ) (count : ℕ)
    //     → ¬ PrefixWrites (TextWrites T.int_type true) text.now number count }
    // ensures { IsPrefixFault T.int_type text.now result.fault result.offset }
{
    refused_prefix(T::SIGNED, text)
}

#[cold]
#[inline(never)]
fn refused(is_signed: bool, is_over: bool, text: &[u8]) -> IntError
    // ensures { result ≡ error_of_whole is_signed is_over text.now }
{
    if is_over {
        out_of_range(text)
    } else {
        wrong_byte(is_signed, text)
    }
}

#[cold]
#[inline(never)]
fn refused_prefix(is_signed: bool, text: &[u8]) -> IntError
    // ensures { result ≡ error_of_prefix is_signed text.now }
{
    let (_, body) = take_sign(is_signed, true, text);
    let fault = match body {
        [] => Fault::Empty,
        [b'0'..=b'9', ..] => return out_of_range(text),
        _ => Fault::NoDigit,
    };
    IntError {
        fault,
        offset: text.len() - body.len(),
    }
}

#[inline] fn out_of_range(text: &[u8]) -> IntError
    // ensures { result ≡ int_error (range_fault text.now) 0 }
{
    let fault = match text {
        [b'-', ..] => Fault::TooSmall,
        _ => Fault::TooLarge,
    };
    IntError { fault, offset: 0 }
}

// The error at the first byte that is neither the sign nor a digit, or at the end.
#[inline] fn wrong_byte(is_signed: bool, text: &[u8]) -> IntError
    // ensures { result ≡ wrong_byte is_signed text.now }
{
    let (_, body) = take_sign(is_signed, true, text);
    let digits = leading_digits(body);
    let fault = match (text.len(), digits) {
        (0, _) => Fault::Empty,
        (_, 0) => Fault::NoDigit,
        _ => Fault::UnexpectedByte,
    };
    IntError {
        fault,
        offset: text.len() - body.len() + digits,
    }
}

#[inline] fn leading_digits(text: &[u8]) -> usize
    // ensures count { result ≡ run_len decimal_table text.now }
    // ensures within { result ≤ length text.now }
{
    text.iter().take_while(|byte| byte.is_ascii_digit()).count()
}
