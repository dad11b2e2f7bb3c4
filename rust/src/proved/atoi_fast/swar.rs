/* Made by .ci/translate from crates/atoi_fast/src/swar.rt. Do not edit. */ //! The engine `Swar`, which reads a window as one word of eight bytes, or as two.
// ghost use Rattle.std.specs.Prelude.{◌≡◌, ◌+◌, ◌-◌, ◌*◌, ◌^◌, ◌<◌, ◌≤◌, ◌==◌, true, length, drop};
// ghost use Rattle.atoi_core.specs.Digit.{decimal_table};
// ghost use Rattle.atoi_core.specs.Loads.{LoadsWithin, most_loads};
// ghost use Rattle.atoi_core.specs.Magnitude.{HasDigits, IsBound64, wide64, wide128, prefix_magnitude};
// ghost use Rattle.atoi_core.specs.Reading.{answer_by_digits, window_of};
// ghost use Rattle.atoi_core.specs.Refusal.{answer_of};
// ghost use Rattle.std.proofs.Common.{arith};
// ghost use Rattle.std.proofs.lemmas.Bool.Decides.{nat_tests};

use crate::proved::atoi_fast::after_16::answer_after_16;
use crate::proved::atoi_fast::digits::{
    ZEROS, leading_digits, leading_digits_flipped, sum_of, value_below_8, value_in_word, value_of,
    zeroes_of, zeroes_of_two,
};
use crate::proved::atoi_fast::loads::{load_flipped, load_full, load_last};
use crate::proved::atoi_fast::one_byte::window_of_one;
use crate::proved::atoi_core::powers::{append_digits, power_of_ten};
use crate::proved::atoi_core::wide_answer::{answer_64, answer_128, found_or_empty};
use crate::proved::atoi_core::{AtoiSimdError, Engine, Steps, Window, window_after_zeros};

/// The engine of words, for the digits `b'0'` to `b'9'`.
pub struct Swar;

impl Engine for Swar {
    // ghost table = { decimal_table };

    #[inline(always)]
    fn window(s: &[u8], steps: &mut Steps) -> Window {
        steps.tick();
        // Long slices first: rustc 1.95 then puts no jump before them.
        if s.len() >= 16 {
            long_window(s)
        } else if s.len() <= 8 {
            window_up_to_8(s)
        } else {
            window_9_to_15(s)
        }
    }

    #[inline(always)]
    fn window_8(s: &[u8], steps: &mut Steps) -> Window {
        steps.tick();
        if s.len() < 8 {
            return window_up_to_8(s);
        }
        let word = load_full(s);
        let len = leading_digits(word);
        if len != 8 {
            return Window::not_full(len, value_below_8(word, len));
        }
        Window {
            len,
            zeroes: zeroes_of(word),
            number: value_of(word, len),
        }
    }

    /// Enters a loop only if there are zeros to skip.
    #[inline(always)]
    fn prefix_64<'a>(
        bound: u64,
        limit: u32,
        skip: bool,
        s: &'a [u8],
        steps: &mut Steps,
    ) -> Result<(u64, usize), AtoiSimdError<'a>> {
        if s.len() >= 16 {
            let first = Swar::window(s, steps);
            if skip && first.zeroes > 0 {
                return prefix_64_after_zeros(bound, limit, first.zeroes, s, steps);
            }
            if first.len < 16 {
                return found_or_empty(first.number, first.len as usize);
            }
            return answer_after_16(bound, limit, first.number, s, steps);
        }
        let only = Swar::window(s, steps);
        found_or_empty(only.number, only.len as usize)
    }

    #[inline(always)]
    fn prefix_128<'a>(
        bound: u128,
        skip: bool,
        s: &'a [u8],
        steps: &mut Steps,
    ) -> Result<(u128, usize), AtoiSimdError<'a>> {
        if s.len() < 16 {
            let only = Swar::window(s, steps);
            return found_or_empty(u128::from(only.number), only.len as usize);
        }
        let first = Swar::window(s, steps);
        if first.len < 16 {
            return found_or_empty(u128::from(first.number), first.len as usize);
        }
        if skip && first.zeroes > 0 {
            return prefix_128_after_zeros(bound, first.zeroes, s, steps);
        }
        if s.len() == 16 {
            return Ok((u128::from(first.number), 16));
        }
        let second = Swar::window(&s[16..], steps);
        if second.len < 16 {
            let number = append_digits(first.number, second.len, second.number);
            return Ok((number, 16 + second.len as usize));
        }
        let high = append_digits(first.number, 16, second.number);
        answer_after_32(bound, 0, high, s, steps)
    }

    // ghost below_ten = { λ byte. Prim.grind (arith, nat_tests) };
}

// `Swar` with the provided parsers: with `Swar` itself, the checker would see a cycle.
struct SwarWithoutParsers;

impl Engine for SwarWithoutParsers {
    // ghost table = { decimal_table };

    #[inline(always)]
    fn window(s: &[u8], steps: &mut Steps) -> Window {
        Swar::window(s, steps)
    }

    #[inline] fn window_8(s: &[u8], steps: &mut Steps) -> Window {
        Swar::window_8(s, steps)
    }

    // ghost below_ten = { λ byte. Prim.grind (arith, nat_tests) };
}

// `prefix_64` with `skip`, after a first window that reported zeros.
#[inline(never)]
fn prefix_64_after_zeros<'a>(
    bound: u64,
    limit: u32,
    zeroes: u32,
    s: &'a [u8],
    steps: &mut Steps,
) -> Result<(u64, usize), AtoiSimdError<'a>>
    // requires bound { IsBound64 limit bound }
    // requires some { 0 < zeroes }
    // requires first_window { zeroes ≡ (window_of decimal_table 16 s.now).zeroes }
    // ensures answer { answer_of result
    //     ≡ prefix_magnitude decimal_table wide64 bound limit true s.now }
    // ensures loads { LoadsWithin (most_loads decimal_table wide64 s.now - 2) decimal_table true
    //     s.now steps.old steps.new }
{
    let (at, first) = window_after_zeros::<SwarWithoutParsers>(zeroes, s, steps);
    if first.len < 16 {
        return Ok((first.number, at + first.len as usize));
    }
    let second = Swar::window_8(&s[at + 16..], steps);
    let number = append_digits(first.number, second.len, second.number);
    answer_64(bound, limit, at, 16 + second.len, number, s)
}

#[inline(never)]
fn prefix_128_after_zeros<'a>(
    bound: u128,
    zeroes: u32,
    s: &'a [u8],
    steps: &mut Steps,
) -> Result<(u128, usize), AtoiSimdError<'a>>
    // requires digits { HasDigits 39 bound }
    // requires some { 0 < zeroes }
    // requires first_window { zeroes ≡ (window_of decimal_table 16 s.now).zeroes }
    // ensures answer { answer_of result ≡ prefix_magnitude decimal_table wide128 bound 39 true s.now }
    // ensures loads { LoadsWithin (most_loads decimal_table wide128 s.now - 2) decimal_table true
    //     s.now steps.old steps.new }
{
    let (at, first) = window_after_zeros::<SwarWithoutParsers>(zeroes, s, steps);
    if first.len < 16 {
        return Ok((u128::from(first.number), at + first.len as usize));
    }
    let second = Swar::window(&s[at + 16..], steps);
    let number = append_digits(first.number, second.len, second.number);
    if second.len < 16 {
        return Ok((number, at + 16 + second.len as usize));
    }
    answer_after_32(bound, at, number, s, steps)
}

// The answer of `prefix_128` after `skipped` zeros and 32 digits, which spell `high`.
#[inline(never)]
pub(crate) fn answer_after_32<'a>(
    bound: u128,
    skipped: usize,
    high: u128,
    s: &'a [u8],
    steps: &mut Steps,
) -> Result<(u128, usize), AtoiSimdError<'a>>
    // requires digits { HasDigits 39 bound }
    // requires below { high < 10 ^ 32 }
    // requires inside { skipped + 32 ≤ length s.now }
    // ensures answer { answer_of result
    //     ≡ answer_by_digits wide128 bound 39 skipped (32 + (window_of decimal_table 8 (drop (skipped + 32) s.now)).len)
    //     (high * 10 ^ (window_of decimal_table 8 (drop (skipped + 32) s.now)).len
    //     + (window_of decimal_table 8 (drop (skipped + 32) s.now)).number) s.now }
    // ensures one_step { steps.new ≡ steps.old + 1 }
{
    let third = Swar::window_8(&s[skipped + 32..], steps);
    answer_128(bound, skipped, high, third.len, third.number, s)
}

#[inline(always)]
fn long_window(s: &[u8]) -> Window
    // requires { 16 ≤ length s.now }
    // ensures { result ≡ window_of decimal_table 16 s.now }
{
    let first = load_full(s);
    let len = leading_digits(first);
    // Callers test this, too, and rustc 1.95 makes one test of both.
    if len == 0 {
        return Window::not_full(0, 0);
    }
    if len != 8 {
        return Window::not_full(len, value_below_8(first, len));
    }
    let next = load_full(&s[8..]);
    let more = leading_digits(next);
    if more != 8 {
        let high = value_of(first, 8) * power_of_ten(more);
        return Window::not_full(8 + more, high + value_below_8(next, more));
    }
    Window {
        len: 16,
        zeroes: zeroes_of_two(first, next),
        number: value_of(first, 8) * power_of_ten(8) + value_of(next, 8),
    }
}

// The window of at most 8 bytes. Fills a slice to eight bytes with zeros before it. Only the lengths 0
// and 1, which is the most frequent, have a branch.
#[inline(always)]
// #[tactic(auto, using(crate::proofs::lemmas::WordWindows::filled_digits, crate::proofs::lemmas::WordRuns::flipped_back))]
fn window_up_to_8(s: &[u8]) -> Window
    // requires { length s.now ≤ 8 }
    // ensures of_16 { result ≡ window_of decimal_table 16 s.now }
    // ensures of_8 { length s.now < 8 → result ≡ window_of decimal_table 8 s.now }
{
    if s.len() <= 1 {
        return window_of_one(s);
    }
    let flipped = load_flipped(s);
    let digits = leading_digits_flipped(flipped);
    if digits == 8 {
        Window {
            len: s.len() as u32,
            zeroes: 0,
            number: sum_of(flipped),
        }
    } else {
        Window {
            len: digits - (8 - s.len() as u32),
            zeroes: 0,
            number: value_in_word(flipped ^ ZEROS, digits),
        }
    }
}

// The window of 9 to 15 bytes. The last eight overlap the first eight.
#[inline(always)]
fn window_9_to_15(s: &[u8]) -> Window
    // requires enough { 8 < length s.now }
    // requires few { length s.now < 16 }
    // ensures { result ≡ window_of decimal_table 16 s.now }
{
    let first = load_full(s);
    let len = leading_digits(first);
    if len != 8 {
        return Window::not_full(len, value_below_8(first, len));
    }
    let last = load_last(s);
    let more = leading_digits(last);
    let size = s.len() as u32;
    let high = value_of(first, size - 8);
    if more == 8 {
        Window::not_full(size, high * power_of_ten(8) + value_of(last, 8))
    } else {
        Window::not_full(
            size - 8 + more,
            high * power_of_ten(more) + value_of(last, more),
        )
    }
}
