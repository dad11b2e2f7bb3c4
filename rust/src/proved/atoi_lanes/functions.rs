/* Made by .ci/translate from crates/atoi_lanes/src/functions.rt. Do not edit. */ //! The ten public functions. atoi_simd and atoi_lanes share this file and the three of the traits
//! (`.ci/texts` compares them).
// ghost use Rattle.std.specs.Prelude.{◌≡◌, ◌≤◌, ◌↔◌, ℕ, ℤ, true, false, IsTrue, IsOk, IfOk, OnErr, length};
// ghost use Rattle.atoi_core.specs.Answer.{typed_answer, typed_prefix_answer, whole_answer, prefix_answer, parse_answer, parse_prefix_answer};
// ghost use Rattle.atoi_core.specs.Digit.{decimal_table};
// ghost use Rattle.atoi_core.specs.Text.{IsText, DigitsWrite, TextWrites, PrefixWrites};

use crate::proved::atoi_lanes::parse_neg_trait::ParseNeg;
use crate::proved::atoi_lanes::parse_trait::Parse;
use crate::proved::atoi_core::AtoiSimdError;
use crate::proved::atoi_core::laws::{accepted_texts, prefix_results, whole_results};

/// Parses all of `s`: an optional sign, which is a `-` if `T` is signed or a `+` with `SKIP_PLUS`, then
/// one or more digits. With `SKIP_ZEROES`, leading zeros do not count towards the limit of digits.
///
/// ```
/// use torkettle::{AtoiSimdError, parse};
/// assert_eq!(parse::<i64, false, false>(b"-2345"), Ok(-2345));
/// assert_eq!(parse::<u8, false, false>(b"256"), Err(AtoiSimdError::Overflow(b"256")));
/// ```
///
/// **Proved:** all results are [as specified](crate::specification). A number is what `s` spells. With
/// `SKIP_ZEROES`, an error means that `s` spells no number in range.
///
/// # Errors
///
/// The first [error](AtoiSimdError) that applies: `Empty` if no digit follows the sign, `Size` if there
/// are too many digits for a type of 64 or 128 bits, `Overflow` if the value does not fit in `T`, and
/// `Invalid64` or `Invalid128` if another byte follows the digits (see the [guide](crate::guide#errors)).
#[inline(always)]
pub fn parse<T: Parse, const SKIP_ZEROES: bool, const SKIP_PLUS: bool>(
    s: &[u8],
) -> Result<T, AtoiSimdError<'_>>
    // ensures answer { typed_answer T.number result
    //     ≡ parse_answer T.int_type SKIP_ZEROES SKIP_PLUS s.now }
    // ensures texts { IsTrue SKIP_ZEROES → IsTrue SKIP_PLUS
    //     → (IsOk result ↔ IsText T.int_type s.now) }
    // ensures number { IfOk result (λ number. TextWrites T.int_type SKIP_PLUS s.now (T.number number)) }
    // ensures refused { IsTrue SKIP_ZEROES → OnErr result ((number : ℤ)
    //     → ¬ TextWrites T.int_type SKIP_PLUS s.now number) }
{
    accepted_texts::<T>();
    whole_results::<T, SKIP_ZEROES>();
    T::atoi_simd_parse(s, SKIP_ZEROES, SKIP_PLUS)
}

/// Like [`parse`], but accepts no sign.
///
/// ```
/// use torkettle::{AtoiSimdError, parse_pos};
/// assert_eq!(parse_pos::<u128, true>(b"0012"), Ok(12));
/// assert_eq!(parse_pos::<i8, false>(b"-5"), Err(AtoiSimdError::Empty));
/// ```
///
/// **Proved:** the same as for [`parse`], with digits only (see the
/// [specification](crate::specification)).
///
/// # Errors
///
/// As for [`parse`].
#[inline(always)]
pub fn parse_pos<T: Parse, const SKIP_ZEROES: bool>(s: &[u8]) -> Result<T, AtoiSimdError<'_>>
    // ensures answer { typed_answer T.number result
    //     ≡ whole_answer decimal_table T.int_type false SKIP_ZEROES s.now }
    // ensures number { IfOk result (λ number. DigitsWrite T.int_type false s.now (T.number number)) }
    // ensures refused { IsTrue SKIP_ZEROES → OnErr result ((number : ℤ)
    //     → ¬ DigitsWrite T.int_type false s.now number) }
{
    whole_results::<T, SKIP_ZEROES>();
    T::atoi_simd_parse_pos(s, SKIP_ZEROES)
}

/// Like [`parse_pos`], but returns the negative number. `s` begins after the `-`.
///
/// ```
/// use torkettle::{AtoiSimdError, parse_neg};
/// assert_eq!(parse_neg::<i8, false>(b"128"), Ok(-128));
/// assert_eq!(parse_neg::<i8, false>(b"129"), Err(AtoiSimdError::Overflow(b"129")));
/// ```
///
/// **Proved:** the same as for [`parse`], with a `-` before `s` (see
/// the [specification](crate::specification)).
///
/// # Errors
///
/// As for [`parse`].
#[inline(always)]
pub fn parse_neg<T: ParseNeg, const SKIP_ZEROES: bool>(s: &[u8]) -> Result<T, AtoiSimdError<'_>>
    // ensures answer { typed_answer T.number result
    //     ≡ whole_answer decimal_table T.int_type true SKIP_ZEROES s.now }
    // ensures number { IfOk result (λ number. DigitsWrite T.int_type true s.now (T.number number)) }
    // ensures refused { IsTrue SKIP_ZEROES → OnErr result ((number : ℤ)
    //     → ¬ DigitsWrite T.int_type true s.now number) }
{
    whole_results::<T, SKIP_ZEROES>();
    T::atoi_simd_parse_neg(s, SKIP_ZEROES)
}

/// Like [`parse`], but parses the number at the start of `s`, whatever follows its digits. Returns the
/// number and its length in bytes, a sign and leading zeros included.
///
/// ```
/// use torkettle::{AtoiSimdError, parse_prefix};
/// assert_eq!(parse_prefix::<u64, false, false>(b"123something_else"), Ok((123, 3)));
/// assert_eq!(parse_prefix::<u64, false, false>(b"-123"), Err(AtoiSimdError::Empty));
/// ```
///
/// **Proved:** all results are [as specified](crate::specification). A number is what the bytes up to
/// its length spell, where no digit follows. With `SKIP_ZEROES`, an error means that `s` begins with
/// no number in range.
///
/// # Errors
///
/// `Empty`, `Size` and `Overflow`, as for [`parse`]. Without `SKIP_ZEROES`, also `Size` if there are more
/// than 16 digits for a type of at most 32 bits (see the [guide](crate::guide#errors)).
#[inline(always)]
pub fn parse_prefix<T: Parse, const SKIP_ZEROES: bool, const SKIP_PLUS: bool>(
    s: &[u8],
) -> Result<(T, usize), AtoiSimdError<'_>>
    // ensures answer { typed_prefix_answer T.number result
    //     ≡ parse_prefix_answer T.int_type SKIP_ZEROES SKIP_PLUS s.now }
    // ensures within { IfOk result (λ found. found.1 ≤ length s.now) }
    // ensures prefix { IfOk result (λ found.
    //     PrefixWrites (TextWrites T.int_type SKIP_PLUS) s.now (T.number found.0) found.1) }
    // ensures refused { IsTrue SKIP_ZEROES → OnErr result ((number : ℤ) (count : ℕ)
    //     → ¬ PrefixWrites (TextWrites T.int_type SKIP_PLUS) s.now number count) }
{
    prefix_results::<T, SKIP_ZEROES>();
    T::atoi_simd_parse_prefix(s, SKIP_ZEROES, SKIP_PLUS)
}

/// Like [`parse_prefix`], but accepts no sign.
///
/// ```
/// use torkettle::{AtoiSimdError, parse_prefix_pos};
/// assert_eq!(parse_prefix_pos::<u16, false>(b"80/tcp"), Ok((80, 2)));
/// assert_eq!(parse_prefix_pos::<u16, false>(b"+80"), Err(AtoiSimdError::Empty));
/// ```
///
/// **Proved:** the same as for [`parse_prefix`], with digits only
/// (see the [specification](crate::specification)).
///
/// # Errors
///
/// As for [`parse_prefix`].
#[inline(always)]
pub fn parse_prefix_pos<T: Parse, const SKIP_ZEROES: bool>(
    s: &[u8],
) -> Result<(T, usize), AtoiSimdError<'_>>
    // ensures answer { typed_prefix_answer T.number result
    //     ≡ prefix_answer decimal_table T.int_type false SKIP_ZEROES s.now }
    // ensures within { IfOk result (λ found. found.1 ≤ length s.now) }
    // ensures prefix { IfOk result (λ found.
    //     PrefixWrites (DigitsWrite T.int_type false) s.now (T.number found.0) found.1) }
    // ensures refused { IsTrue SKIP_ZEROES → OnErr result ((number : ℤ) (count : ℕ)
    //     → ¬ PrefixWrites (DigitsWrite T.int_type false) s.now number count) }
{
    prefix_results::<T, SKIP_ZEROES>();
    T::atoi_simd_parse_prefix_pos(s, SKIP_ZEROES)
}

/// Like [`parse_prefix_pos`], but returns the negative number. `s` begins after the `-`.
///
/// ```
/// use torkettle::{AtoiSimdError, parse_prefix_neg};
/// assert_eq!(parse_prefix_neg::<i32, false>(b"12a"), Ok((-12, 2)));
/// assert_eq!(parse_prefix_neg::<i32, false>(b"-12a"), Err(AtoiSimdError::Empty));
/// ```
///
/// **Proved:** the same as for [`parse_prefix`], with a `-` before `s`
/// (see the [specification](crate::specification)).
///
/// # Errors
///
/// As for [`parse_prefix`].
#[inline(always)]
pub fn parse_prefix_neg<T: ParseNeg, const SKIP_ZEROES: bool>(
    s: &[u8],
) -> Result<(T, usize), AtoiSimdError<'_>>
    // ensures answer { typed_prefix_answer T.number result
    //     ≡ prefix_answer decimal_table T.int_type true SKIP_ZEROES s.now }
    // ensures within { IfOk result (λ found. found.1 ≤ length s.now) }
    // ensures prefix { IfOk result (λ found.
    //     PrefixWrites (DigitsWrite T.int_type true) s.now (T.number found.0) found.1) }
    // ensures refused { IsTrue SKIP_ZEROES → OnErr result ((number : ℤ) (count : ℕ)
    //     → ¬ PrefixWrites (DigitsWrite T.int_type true) s.now number count) }
{
    prefix_results::<T, SKIP_ZEROES>();
    T::atoi_simd_parse_prefix_neg(s, SKIP_ZEROES)
}

/// The old name of `parse::<T, true, true>`.
///
/// ```
/// assert_eq!(torkettle::parse_skipped::<isize>(b"+007"), Ok(7));
/// ```
///
/// **Proved:** the same as for [`parse`] (see the [specification](crate::specification)).
///
/// # Errors
///
/// As for [`parse`].
#[inline(always)]
pub fn parse_skipped<T: Parse>(s: &[u8]) -> Result<T, AtoiSimdError<'_>>
    // ensures answer { typed_answer T.number result ≡ parse_answer T.int_type true true s.now }
    // ensures texts { IsOk result ↔ IsText T.int_type s.now }
    // ensures number { IfOk result (λ number. TextWrites T.int_type true s.now (T.number number)) }
    // ensures refused { OnErr result ((number : ℤ) → ¬ TextWrites T.int_type true s.now number) }
{
    parse::<T, true, true>(s)
}

/// The old name of `parse_prefix::<T, false, false>`.
///
/// ```
/// assert_eq!(torkettle::parse_any::<usize>(b"7 "), Ok((7, 1)));
/// ```
///
/// **Proved:** the same as for [`parse_prefix`] (see the [specification](crate::specification)).
///
/// # Errors
///
/// As for [`parse_prefix`].
#[inline(always)]
pub fn parse_any<T: Parse>(s: &[u8]) -> Result<(T, usize), AtoiSimdError<'_>>
    // ensures answer { typed_prefix_answer T.number result
    //     ≡ parse_prefix_answer T.int_type false false s.now }
    // ensures within { IfOk result (λ found. found.1 ≤ length s.now) }
    // ensures prefix { IfOk result (λ found.
    //     PrefixWrites (TextWrites T.int_type false) s.now (T.number found.0) found.1) }
{
    parse_prefix::<T, false, false>(s)
}

/// The old name of `parse_prefix_pos::<T, false>`.
///
/// ```
/// assert_eq!(torkettle::parse_any_pos::<u8>(b"255."), Ok((255, 3)));
/// ```
///
/// **Proved:** the same as for [`parse_prefix_pos`] (see the [specification](crate::specification)).
///
/// # Errors
///
/// As for [`parse_prefix`].
#[inline(always)]
pub fn parse_any_pos<T: Parse>(s: &[u8]) -> Result<(T, usize), AtoiSimdError<'_>>
    // ensures answer { typed_prefix_answer T.number result
    //     ≡ prefix_answer decimal_table T.int_type false false s.now }
    // ensures within { IfOk result (λ found. found.1 ≤ length s.now) }
    // ensures prefix { IfOk result (λ found.
    //     PrefixWrites (DigitsWrite T.int_type false) s.now (T.number found.0) found.1) }
{
    parse_prefix_pos::<T, false>(s)
}

/// The old name of `parse_prefix_neg::<T, false>`.
///
/// ```
/// assert_eq!(torkettle::parse_any_neg::<i16>(b"1-"), Ok((-1, 1)));
/// ```
///
/// **Proved:** the same as for [`parse_prefix_neg`] (see the [specification](crate::specification)).
///
/// # Errors
///
/// As for [`parse_prefix`].
#[inline(always)]
pub fn parse_any_neg<T: ParseNeg>(s: &[u8]) -> Result<(T, usize), AtoiSimdError<'_>>
    // ensures answer { typed_prefix_answer T.number result
    //     ≡ prefix_answer decimal_table T.int_type true false s.now }
    // ensures within { IfOk result (λ found. found.1 ≤ length s.now) }
    // ensures prefix { IfOk result (λ found.
    //     PrefixWrites (DigitsWrite T.int_type true) s.now (T.number found.0) found.1) }
{
    parse_prefix_neg::<T, false>(s)
}
