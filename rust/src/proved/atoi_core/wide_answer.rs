/* Made by .ci/translate from crates/atoi_core/src/wide_answer.rt. Do not edit. */ //! The answer of a wide parse, once its digits are read.
// ghost use Rattle.std.specs.Prelude.{◌≡◌, ◌+◌, ◌*◌, ◌^◌, ◌<◌, ◌≤◌, ◌==◌, nat_lt, if◌then◌else◌, Ok, Err, length};
// ghost use Rattle.atoi_core.specs.Magnitude.{HasDigits, wide64, wide128};
// ghost use Rattle.atoi_core.specs.Reading.{answer_by_digits};
// ghost use Rattle.atoi_core.specs.Refusal.{answer_of, empty};

use crate::proved::atoi_core::error::AtoiSimdError;
use crate::proved::atoi_core::powers::power_of_ten;

/// Returns `number`, which has `len` digits, with `len`. The error is `Empty` if `len` is 0.
#[inline(always)]
pub fn found_or_empty<'a, N: Copy>(number: N, len: usize) -> Result<(N, usize), AtoiSimdError<'a>>
    // ensures { answer_of result ≡ (if len == 0 then Err empty else Ok (number, len)) }
{
    if len == 0 {
        Err(AtoiSimdError::Empty)
    } else {
        Ok((number, len))
    }
}

/// Returns the answer of `prefix_64` for `s`, which starts with `skipped` zeros and then
/// `significant` digits that spell `number`. The errors are `Empty`, `Size` and `Overflow`.
#[inline(always)]
pub fn answer_64<'a>(
    bound: u64,
    limit: u32,
    skipped: usize,
    significant: u32,
    number: u128,
    s: &'a [u8],
) -> Result<(u64, usize), AtoiSimdError<'a>>
    // requires inside { skipped + significant ≤ length s.now }
    // ensures { answer_of result ≡ answer_by_digits wide64 bound limit skipped significant number s.now }
{
    let len = skipped + significant as usize;
    let body = &s[skipped..];
    if len == 0 {
        Err(AtoiSimdError::Empty)
    } else if significant > limit {
        Err(AtoiSimdError::Size(skipped + significant.min(24) as usize, body))
    } else if number > u128::from(bound) {
        Err(AtoiSimdError::Overflow(body))
    } else {
        Ok((number as u64, len))
    }
}

/// Returns the answer of `prefix_128` for `s`, which starts with `skipped` zeros, then 32 digits
/// that spell `high`, and then `more` digits that spell `low`. The errors are `Size` and
/// `Overflow`.
#[inline(always)]
pub fn answer_128<'a>(
    bound: u128,
    skipped: usize,
    high: u128,
    more: u32,
    low: u64,
    s: &'a [u8],
) -> Result<(u128, usize), AtoiSimdError<'a>>
    // requires digits { HasDigits 39 bound }
    // requires few { more ≤ 8 }
    // requires below { high * 10 ^ more + low < 10 ^ (32 + more) }
    // requires inside { skipped + (32 + more) ≤ length s.now }
    // ensures { answer_of result ≡ answer_by_digits wide128 bound 39 skipped (32 + more)
    //     (high * 10 ^ more + low) s.now }
{
    let len = skipped + 32 + more as usize;
    if more == 8 {
        return Err(AtoiSimdError::Size(len, &s[skipped..]));
    }
    let power = u128::from(power_of_ten(more));
    if more < 7 {
        // Fewer than 39 digits are never above a bound of 39.
        return Ok((high * power + u128::from(low), len));
    }
    match within_bound(bound, high, power, low) {
        Some(number) => Ok((number, len)),
        None => Err(AtoiSimdError::Overflow(&s[skipped..])),
    }
}

#[inline] fn within_bound(bound: u128, high: u128, power: u128, low: u64) -> Option<u128>
    // ensures { result ≡ (if nat_lt bound (high * power + low) then None
    //     else Some (high * power + low)) }
{
    let number = high.checked_mul(power)?.checked_add(u128::from(low))?;
    if number > bound { None } else { Some(number) }
}
