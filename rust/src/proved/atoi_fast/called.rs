/* Made by .ci/translate from crates/atoi_fast/src/called.rt. Do not edit. */ //! The parses of C, in place of the parses in `calls`. To take little code, each reads most numbers and
//! calls the parse of its name in `atoi_core` for the others.
// ghost use Rattle.std.specs.Prelude.{◌≡◌, ◌+◌, ◌≤◌, false, IfOk, length};
// ghost use Rattle.atoi_core.specs.Answer.{typed_answer, typed_prefix_answer, text_answer, text_prefix_answer, whole_answer, prefix_answer};
// ghost use Rattle.atoi_core.specs.Digit.{decimal_table};
// ghost use Rattle.atoi_core.specs.IntType.{class_of};
// ghost use Rattle.atoi_core.specs.Loads.{LoadsWithin, most_loads, skips_zeros};
// ghost use Rattle.atoi_core.specs.Magnitude.{whole, prefix};
// ghost use Rattle.atoi_core.specs.Sign.{sign_of};

use crate::proved::atoi_fast::short_prefix::{loaded_prefix, short_prefix};
use crate::proved::atoi_fast::short_slice::{loaded_digit, loaded_slice};
use crate::proved::atoi_core::{AtoiSimdError, Engine, Number, Steps};

/// `atoi_core::parse_text`, with at most one load more.
#[inline(always)]
pub fn parse_text<'a, E: Engine, T: Number>(
    skip: bool,
    skip_plus: bool,
    s: &'a [u8],
    steps: &mut Steps,
) -> Result<T, AtoiSimdError<'a>>
    // requires decimal { E.table ≡ decimal_table }
    // ensures answer { typed_answer T.number result ≡ text_answer E.table T.int_type skip skip_plus s.now }
    // ensures loads { LoadsWithin (most_loads E.table (class_of T.int_type) (sign_of T.SIGNED skip_plus s.now).body + 1)
    //     E.table (skips_zeros (class_of T.int_type) whole skip) (sign_of T.SIGNED skip_plus s.now).body
    //     steps.old steps.new }
{
    if let [b'0'..=b'9'] = s {
        return Ok(loaded_digit(s, steps));
    }
    if let 2..=15 = s.len() {
        if let Some(number) = loaded_slice::<T>(s, steps) {
            return Ok(number);
        }
    }
    crate::proved::atoi_core::parse_text::<E, T>(skip, skip_plus, s, steps)
}

/// `atoi_core::parse_prefix_text`, with at most one load more.
#[inline(always)]
pub fn parse_prefix_text<'a, E: Engine, T: Number>(
    skip: bool,
    skip_plus: bool,
    s: &'a [u8],
    steps: &mut Steps,
) -> Result<(T, usize), AtoiSimdError<'a>>
    // requires decimal { E.table ≡ decimal_table }
    // ensures answer { typed_prefix_answer T.number result
    //     ≡ text_prefix_answer E.table T.int_type skip skip_plus s.now }
    // ensures within { IfOk result (λ found. found.1 ≤ length s.now) }
    // ensures loads { LoadsWithin (most_loads E.table (class_of T.int_type) (sign_of T.SIGNED skip_plus s.now).body + 1)
    //     E.table (skips_zeros (class_of T.int_type) prefix skip) (sign_of T.SIGNED skip_plus s.now).body
    //     steps.old steps.new }
{
    if s.len() >= 16 {
        if let Some(found) = short_prefix::<T>(s, steps) {
            return Ok(found);
        }
    } else if s.len() >= 2 {
        // Many texts are a number alone.
        if let Some(number) = loaded_slice::<T>(s, steps) {
            return Ok((number, s.len()));
        }
    }
    crate::proved::atoi_core::parse_prefix_text::<E, T>(skip, skip_plus, s, steps)
}

/// `atoi_core::whole_pos`, with at most one load more.
#[inline(always)]
pub fn whole_pos<'a, E: Engine, T: Number>(
    skip: bool,
    s: &'a [u8],
    steps: &mut Steps,
) -> Result<T, AtoiSimdError<'a>>
    // requires decimal { E.table ≡ decimal_table }
    // ensures answer { typed_answer T.number result ≡ whole_answer E.table T.int_type false skip s.now }
    // ensures loads { LoadsWithin (most_loads E.table (class_of T.int_type) s.now + 1)
    //     E.table (skips_zeros (class_of T.int_type) whole skip) s.now steps.old steps.new }
{
    match s {
        [b'0'..=b'9', _, ..] if s.len() < 16 => {
            if let Some(number) = loaded_slice::<T>(s, steps) {
                return Ok(number);
            }
        }
        _ => {}
    }
    crate::proved::atoi_core::whole_pos::<E, T>(skip, s, steps)
}

/// `atoi_core::prefix_pos`, with at most one load more.
#[inline(always)]
pub fn prefix_pos<'a, E: Engine, T: Number>(
    skip: bool,
    s: &'a [u8],
    steps: &mut Steps,
) -> Result<(T, usize), AtoiSimdError<'a>>
    // requires decimal { E.table ≡ decimal_table }
    // ensures answer { typed_prefix_answer T.number result
    //     ≡ prefix_answer E.table T.int_type false skip s.now }
    // ensures within { IfOk result (λ found. found.1 ≤ length s.now) }
    // ensures loads { LoadsWithin (most_loads E.table (class_of T.int_type) s.now + 1)
    //     E.table (skips_zeros (class_of T.int_type) prefix skip) s.now steps.old steps.new }
{
    match s {
        [b'0'..=b'9', ..] if s.len() >= 16 => {
            if let Some(found) = loaded_prefix::<T>(s, steps) {
                return Ok(found);
            }
        }
        _ => {}
    }
    crate::proved::atoi_core::prefix_pos::<E, T>(skip, s, steps)
}
