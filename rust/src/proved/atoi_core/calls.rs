/* Made by .ci/translate from crates/atoi_core/src/calls.rt. Do not edit. */ //! The parses of an integer type: the sign, then the digits with the parser for the type's size. The
//! four *core calls* parse digits without a sign.
// ghost use Rattle.std.specs.Prelude.{◌≡◌, ◌+◌, ◌≤◌, true, false, IfOk, length};
// ghost use Rattle.atoi_core.specs.Answer.{typed_answer, typed_prefix_answer, text_answer, text_prefix_answer, whole_answer, prefix_answer};
// ghost use Rattle.atoi_core.specs.IntType.{class_of, bound_of, limit_of};
// ghost use Rattle.atoi_core.specs.Loads.{TypedLoads};
// ghost use Rattle.atoi_core.specs.Magnitude.{whole, prefix, whole_magnitude, prefix_magnitude};
// ghost use Rattle.atoi_core.specs.Refusal.{answer_of};
// ghost use Rattle.atoi_core.specs.Sign.{sign_of};

use crate::proved::atoi_core::engine::Engine;
use crate::proved::atoi_core::engine::steps::Steps;
use crate::proved::atoi_core::error::AtoiSimdError;
use crate::proved::atoi_core::narrow::{narrow_prefix, narrow_whole_windows};
use crate::proved::atoi_core::number::{Number, Signed, greatest_magnitude, limit_64};
use crate::proved::atoi_core::wide::{whole_64, whole_128};

/// Parses all of `s` as at most one sign and digits. Returns the errors of `whole_pos` for the
/// body, or of `whole_neg` after a `-`.
#[inline(always)]
pub fn parse_text<'a, E: Engine, T: Number>(
    skip: bool,
    skip_plus: bool,
    s: &'a [u8],
    steps: &mut Steps,
) -> Result<T, AtoiSimdError<'a>>
    // ensures answer { typed_answer T.number result ≡ text_answer E.table T.int_type skip skip_plus s.now }
    // ensures loads { TypedLoads E.table T.int_type whole skip (sign_of T.SIGNED skip_plus s.now).body
    //     steps.old steps.new }
{
    let (minus, body) = take_sign(T::SIGNED, skip_plus, s);
    whole_with_sign::<E, T>(minus, skip, body, steps)
}

/// Parses the number at the start of `s`, and returns it with its length, the sign included. Returns the
/// errors of `prefix_pos` for the body, or of `prefix_neg` after a `-`.
#[inline(always)]
pub fn parse_prefix_text<'a, E: Engine, T: Number>(
    skip: bool,
    skip_plus: bool,
    s: &'a [u8],
    steps: &mut Steps,
) -> Result<(T, usize), AtoiSimdError<'a>>
    // ensures answer { typed_prefix_answer T.number result
    //     ≡ text_prefix_answer E.table T.int_type skip skip_plus s.now }
    // ensures within { IfOk result (λ found. found.1 ≤ length s.now) }
    // ensures loads { TypedLoads E.table T.int_type prefix skip (sign_of T.SIGNED skip_plus s.now).body
    //     steps.old steps.new }
    // ensures unskipped { T.BITS ≤ 32 → skip ≡ false → steps.new ≤ steps.old + 2 }
{
    let (minus, body) = take_sign(T::SIGNED, skip_plus, s);
    let (number, len) = prefix_with_sign::<E, T>(minus, skip, body, steps)?;
    Ok((number, len + (s.len() - body.len())))
}

/// Consumes a `+` if `skip_plus`, or a `-` if `signed`. Returns whether it was a `-`, and the body
/// after it.
#[inline(always)]
pub fn take_sign(signed: bool, skip_plus: bool, s: &[u8]) -> (bool, &[u8])
    // ensures minus { result.0 ≡ (sign_of signed skip_plus s.now).minus }
    // ensures body { result.1.now ≡ (sign_of signed skip_plus s.now).body }
    // ensures taken { length result.1.now + (sign_of signed skip_plus s.now).taken ≡ length s.now }
    // ensures minus_if_signed { result.0 ≡ true → signed ≡ true }
{
    match s {
        [b'+', body @ ..] if skip_plus => (false, body),
        [b'-', body @ ..] if signed => (true, body),
        _ => (false, s),
    }
}

/// Parses all of `s`, digits without a sign, as a `T` that is not negative. With `skip`, leading
/// zeros do not count towards a limit of digits. The errors are of every kind, and `s` is the body.
#[inline(always)]
pub fn whole_pos<'a, E: Engine, T: Number>(
    skip: bool,
    s: &'a [u8],
    steps: &mut Steps,
) -> Result<T, AtoiSimdError<'a>>
    // ensures answer { typed_answer T.number result ≡ whole_answer E.table T.int_type false skip s.now }
    // ensures loads { TypedLoads E.table T.int_type whole skip s.now steps.old steps.new }
{
    whole_with_sign::<E, T>(false, skip, s, steps)
}

/// Like `whole_pos`, but returns minus the value of the digits.
#[inline(always)]
pub fn whole_neg<'a, E: Engine, T: Signed>(
    skip: bool,
    s: &'a [u8],
    steps: &mut Steps,
) -> Result<T, AtoiSimdError<'a>>
    // ensures answer { typed_answer T.number result ≡ whole_answer E.table T.int_type true skip s.now }
    // ensures loads { TypedLoads E.table T.int_type whole skip s.now steps.old steps.new }
{
    whole_with_sign::<E, T>(true, skip, s, steps)
}

/// Like `whole_pos`, but parses the digits at the start of `s`. Also returns how many there are.
/// The errors are `Empty`, `Size` and `Overflow`.
#[inline(always)]
pub fn prefix_pos<'a, E: Engine, T: Number>(
    skip: bool,
    s: &'a [u8],
    steps: &mut Steps,
) -> Result<(T, usize), AtoiSimdError<'a>>
    // ensures answer { typed_prefix_answer T.number result
    //     ≡ prefix_answer E.table T.int_type false skip s.now }
    // ensures within { IfOk result (λ found. found.1 ≤ length s.now) }
    // ensures loads { TypedLoads E.table T.int_type prefix skip s.now steps.old steps.new }
    // ensures unskipped { T.BITS ≤ 32 → skip ≡ false → steps.new ≤ steps.old + 2 }
{
    prefix_with_sign::<E, T>(false, skip, s, steps)
}

/// Like `prefix_pos`, but returns minus the value of the digits.
#[inline(always)]
pub fn prefix_neg<'a, E: Engine, T: Signed>(
    skip: bool,
    s: &'a [u8],
    steps: &mut Steps,
) -> Result<(T, usize), AtoiSimdError<'a>>
    // ensures answer { typed_prefix_answer T.number result
    //     ≡ prefix_answer E.table T.int_type true skip s.now }
    // ensures within { IfOk result (λ found. found.1 ≤ length s.now) }
    // ensures loads { TypedLoads E.table T.int_type prefix skip s.now steps.old steps.new }
    // ensures unskipped { T.BITS ≤ 32 → skip ≡ false → steps.new ≤ steps.old + 2 }
{
    prefix_with_sign::<E, T>(true, skip, s, steps)
}

// Like `whole_neg` if `minus` is set, otherwise like `whole_pos`: a type that may be unsigned has no
// `whole_neg`.
#[inline(always)]
// #[tactic(auto, using(crate::proofs::lemmas::Calls::whole_in_bounds))]
fn whole_with_sign<'a, E: Engine, T: Number>(
    minus: bool,
    skip: bool,
    s: &'a [u8],
    steps: &mut Steps,
) -> Result<T, AtoiSimdError<'a>>
    // requires signed { minus ≡ true → T.SIGNED ≡ true }
    // ensures answer { typed_answer T.number result ≡ whole_answer E.table T.int_type minus skip s.now }
    // ensures loads { TypedLoads E.table T.int_type whole skip s.now steps.old steps.new }
{
    let magnitude = whole_by_size::<E, T>(minus, skip, s, steps)?;
    Ok(T::from_parts(minus, magnitude))
}

/// Returns the magnitude that `whole_pos` returns, or with `minus` that `whole_neg` negates, by the parser
/// for the type's size. The errors are the same.
#[inline(always)]
// #[tactic(auto, using(crate::proofs::lemmas::Refusals::narrow_whole_limit))]
pub fn whole_by_size<'a, E: Engine, T: Number>(
    minus: bool,
    skip: bool,
    s: &'a [u8],
    steps: &mut Steps,
) -> Result<u128, AtoiSimdError<'a>>
    // requires signed { minus ≡ true → T.SIGNED ≡ true }
    // ensures answer { answer_of result ≡ whole_magnitude E.table (class_of T.int_type)
    //     (bound_of T.int_type minus) (limit_of T.int_type) skip s.now }
    // ensures loads { TypedLoads E.table T.int_type whole skip s.now steps.old steps.new }
{
    let bound = greatest_magnitude::<T>(minus);
    if T::BITS <= 32 {
        let number = narrow_whole_windows::<E>(bound as u64, s, steps)?;
        Ok(u128::from(number))
    } else if T::BITS == 64 {
        let number = whole_64::<E>(bound as u64, limit_64::<T>(), skip, s, steps)?;
        Ok(u128::from(number))
    } else {
        whole_128::<E>(bound, skip, s, steps)
    }
}

/// Like `prefix_neg` if `minus` is set, otherwise like `prefix_pos`, for a type that may be unsigned.
#[inline(always)]
// #[tactic(auto, using(crate::proofs::lemmas::Calls::prefix_in_bounds))]
pub fn prefix_with_sign<'a, E: Engine, T: Number>(
    minus: bool,
    skip: bool,
    s: &'a [u8],
    steps: &mut Steps,
) -> Result<(T, usize), AtoiSimdError<'a>>
    // requires signed { minus ≡ true → T.SIGNED ≡ true }
    // ensures answer { typed_prefix_answer T.number result
    //     ≡ prefix_answer E.table T.int_type minus skip s.now }
    // ensures within { IfOk result (λ found. found.1 ≤ length s.now) }
    // ensures loads { TypedLoads E.table T.int_type prefix skip s.now steps.old steps.new }
    // ensures unskipped { T.BITS ≤ 32 → skip ≡ false → steps.new ≤ steps.old + 2 }
{
    let (magnitude, len) = prefix_by_size::<E, T>(minus, skip, s, steps)?;
    Ok((T::from_parts(minus, magnitude), len))
}

// Returns the magnitude and how many digits there are, by the parser for the type's size.
#[inline(always)]
// #[tactic(auto, using(crate::proofs::lemmas::Refusals::narrow_prefix_limit))]
fn prefix_by_size<'a, E: Engine, T: Number>(
    minus: bool,
    skip: bool,
    s: &'a [u8],
    steps: &mut Steps,
) -> Result<(u128, usize), AtoiSimdError<'a>>
    // requires signed { minus ≡ true → T.SIGNED ≡ true }
    // ensures answer { answer_of result ≡ prefix_magnitude E.table (class_of T.int_type)
    //     (bound_of T.int_type minus) (limit_of T.int_type) skip s.now }
    // ensures loads { TypedLoads E.table T.int_type prefix skip s.now steps.old steps.new }
    // ensures unskipped { T.BITS ≤ 32 → skip ≡ false → steps.new ≤ steps.old + 2 }
{
    let bound = greatest_magnitude::<T>(minus);
    if T::BITS <= 32 {
        let (number, len) = narrow_prefix::<E>(bound as u64, skip, s, steps)?;
        Ok((u128::from(number), len))
    } else if T::BITS == 64 {
        let (number, len) = E::prefix_64(bound as u64, limit_64::<T>(), skip, s, steps)?;
        Ok((u128::from(number), len))
    } else {
        E::prefix_128(bound, skip, s, steps)
    }
}
