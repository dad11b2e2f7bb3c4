/* Made by .ci/translate from crates/atoi_fast/src/vectors/wide.rt. Do not edit. */ //! How `Vectors` parses 64 and 128 bits after 16 digits. To skip zeros, it reads 32 bytes at once, from the start.
// ghost use Rattle.std.specs.Prelude.{◌≡◌, ◌+◌, ◌*◌, ◌/◌, ◌<◌, ◌≤◌, MatchOption, length, take, drop, min, true, false};
// ghost use Rattle.atoi_core.specs.Digit.{decimal_table};
// ghost use Rattle.atoi_core.specs.Magnitude.{HasDigits, wide64, wide128, prefix_magnitude};
// ghost use Rattle.atoi_core.specs.Refusal.{answer_of};
// ghost use Rattle.atoi_core.specs.Run.{run_len, value, zeros};
// ghost use Rattle.atoi_fast.specs.Vectors.{ReadsAfterZeros};

use crate::proved::atoi_fast::after_16::starts_with_digit;
use crate::proved::atoi_fast::swar::answer_after_32;
use crate::proved::atoi_fast::vectors::bytes::{load_lanes, non_digits, sum_lanes, value_of_last_lanes};
use crate::proved::atoi_fast::vectors::read_window;
use crate::proved::atoi_fast::vectors::window_32::{Window32, window_32};
use crate::proved::atoi_core::powers::append_digits;
use crate::proved::atoi_core::wide_answer::{answer_64, found_or_empty};
use crate::proved::atoi_core::{AtoiSimdError, Steps};

// The answer of `prefix_128` of `Vectors` that skips no zeros, after 16 digits, which spell `high`.
#[inline(always)]
pub(crate) fn answer_128_after_16<'a>(
    bound: u128,
    high: u64,
    s: &'a [u8],
    steps: &mut Steps,
) -> Result<(u128, usize), AtoiSimdError<'a>>
    // requires digits { HasDigits 39 bound }
    // requires full { 16 ≤ run_len decimal_table s.now }
    // requires number { high ≡ value decimal_table (take 16 s.now) }
    // ensures answer { answer_of result
    //     ≡ prefix_magnitude decimal_table wide128 bound 39 false s.now }
    // ensures most { steps.new ≤ steps.old + 2 }
    // ensures least { steps.old ≤ steps.new }
{
    if s.len() == 16 {
        return Ok((u128::from(high), s.len()));
    }
    if s.len() < 32 {
        if let Some(low) = number_after_16(s) {
            return Ok((append_digits(high, s.len() as u32 - 16, low), s.len()));
        }
    }
    if !starts_with_digit(&s[16..]) {
        return Ok((u128::from(high), 16));
    }
    steps.tick();
    let second = read_window(&s[16..]);
    let number = append_digits(high, second.len, second.number);
    if second.len < 16 {
        return Ok((number, 16 + second.len as usize));
    }
    answer_after_32(bound, 0, number, s, steps)
}

// Returns the number that the bytes after 16 digits spell, if all are digits.
#[inline(always)]
fn number_after_16(s: &[u8]) -> Option<u64>
    // requires full { 16 ≤ run_len decimal_table s.now }
    // requires few { length s.now < 32 }
    // ensures { MatchOption result (run_len decimal_table s.now < length s.now)
    //     (λ number. (run_len decimal_table s.now ≡ length s.now)
    //     × (number ≡ value decimal_table (drop 16 s.now))) }
{
    let more = s.len() - 16;
    let last = load_lanes(&s[more..]);
    if non_digits(last) != 0 {
        return None;
    }
    // The first of these lanes are among the first 16, too.
    Some(value_of_last_lanes(last, more))
}

// `prefix_64` of `Vectors` with `skip`.
#[inline(never)]
pub(crate) fn prefix_64_after_zeros<'a>(
    bound: u64,
    limit: u32,
    s: &'a [u8],
    steps: &mut Steps,
) -> Result<(u64, usize), AtoiSimdError<'a>>
    // requires limit_high { limit ≤ 20 }
    // ensures answer { answer_of result
    //     ≡ prefix_magnitude decimal_table wide64 bound limit true s.now }
    // ensures most { steps.new ≤ steps.old + zeros decimal_table s.now / 32 + 2 }
    // ensures least { steps.old + zeros decimal_table s.now / 32 ≤ steps.new }
{
    let (at, window) = window_after_zeros(s, steps);
    let skipped = at + window.zeroes as usize;
    answer_64(
        bound,
        limit,
        skipped,
        window.len - window.zeroes,
        window.number,
        s,
    )
}

// `prefix_128` of `Vectors` with `skip`.
#[inline(never)]
pub(crate) fn prefix_128_after_zeros<'a>(
    bound: u128,
    s: &'a [u8],
    steps: &mut Steps,
) -> Result<(u128, usize), AtoiSimdError<'a>>
    // requires digits { HasDigits 39 bound }
    // ensures answer { answer_of result ≡ prefix_magnitude decimal_table wide128 bound 39 true s.now }
    // ensures most { steps.new ≤ steps.old + zeros decimal_table s.now / 32 + 3 }
    // ensures least { steps.old + zeros decimal_table s.now / 32 ≤ steps.new }
{
    let (at, window) = window_after_zeros(s, steps);
    if window.len < 32 {
        return found_or_empty(window.number, at + window.len as usize);
    }
    answer_after_32(bound, at, window.number, s, steps)
}

// Returns the first window that is not full of digits or does not begin with a zero, and its offset.
#[inline] fn window_after_zeros(s: &[u8], steps: &mut Steps) -> (usize, Window32)
    // ensures reached { ReadsAfterZeros s.now result.0 result.1 }
    // ensures offset { result.0
    //     ≡ min (zeros decimal_table s.now) (run_len decimal_table s.now / 32 * 32) }
    // ensures loads { steps.new ≡ steps.old + (result.0 + 31) / 32 + 1 }
{
    let mut at = 0;
    loop {
        let window = window_32(&s[at..], steps);
        if window.zeroes == 0 || window.len < 32 {
            return (at, window);
        }
        at += window.zeroes as usize;
    }
}
