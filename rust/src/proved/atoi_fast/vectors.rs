/* Made by .ci/translate from crates/atoi_fast/src/vectors.rt. Do not edit. */ //! The engine `Vectors`, which reads sixteen bytes at once into the lanes of a vector.
// ghost use Rattle.std.specs.Prelude.{◌≡◌, ◌+◌, ◌<◌, ◌≤◌, length, take};
// ghost use Rattle.std.proofs.Common.{arith};
// ghost use Rattle.std.proofs.lemmas.Bool.Decides.{nat_tests};
// ghost use Rattle.atoi_core.specs.Digit.{decimal_table};
// ghost use Rattle.atoi_core.specs.Reading.{window_of};
// ghost use Rattle.atoi_core.specs.Lanes.{lane_window};

pub(crate) mod bytes;
pub(crate) mod wide;
pub(crate) mod window_32;

use crate::proved::atoi_fast::after_16::answer_after_16;
use crate::proved::atoi_fast::digits::value_in_word;
use crate::proved::atoi_fast::loads::load_full;
use crate::proved::atoi_fast::vectors::bytes::{
    load_lanes, non_digits, number_of_8_to_15, sum_lanes, window_below_8, zeroes_lanes,
};
use crate::proved::atoi_fast::vectors::wide::{answer_128_after_16, prefix_64_after_zeros, prefix_128_after_zeros};
use crate::proved::atoi_core::wide_answer::found_or_empty;
use crate::proved::atoi_core::{AtoiSimdError, Engine, Steps, Window};
use crate::simd::prelude::*;

/// The engine of vectors, for the digits `b'0'` to `b'9'`.
pub struct Vectors;

impl Engine for Vectors {
    // ghost table = { decimal_table };

    #[inline(always)]
    fn window(s: &[u8], steps: &mut Steps) -> Window {
        steps.tick();
        if s.len() >= 16 {
            return long_window(s);
        }
        window_below_16(s)
    }

    #[inline(always)]
    // #[tactic(auto, using(atoi_core::proofs::lemmas::LaneWindows::window_of_half))]
    fn window_8(s: &[u8], steps: &mut Steps) -> Window {
        steps.tick();
        lane_window(load_lanes(&s[..s.len().min(8)]), 8)
    }

    #[inline(always)]
    fn prefix_64<'a>(
        bound: u64,
        limit: u32,
        skip: bool,
        s: &'a [u8],
        steps: &mut Steps,
    ) -> Result<(u64, usize), AtoiSimdError<'a>> {
        steps.tick();
        // Long slices first: rustc 1.95 then puts no jump before them.
        if s.len() >= 16 {
            let first = load_lanes(s);
            let mask = non_digits(first);
            if mask != 0 {
                let len = mask.trailing_zeros();
                return found_or_empty(sum_lanes(first, len), len as usize);
            }
            if skip && s[0] == b'0' {
                return prefix_64_after_zeros(bound, limit, s, steps);
            }
            return answer_after_16(bound, limit, sum_lanes(first, 16), s, steps);
        }
        let only = window_below_16(s);
        found_or_empty(only.number, only.len as usize)
    }

    #[inline(always)]
    fn prefix_128<'a>(
        bound: u128,
        skip: bool,
        s: &'a [u8],
        steps: &mut Steps,
    ) -> Result<(u128, usize), AtoiSimdError<'a>> {
        steps.tick();
        if s.len() >= 16 {
            let first = load_lanes(s);
            let mask = non_digits(first);
            if mask != 0 {
                let len = mask.trailing_zeros();
                return found_or_empty(u128::from(sum_lanes(first, len)), len as usize);
            }
            if skip && s[0] == b'0' {
                return prefix_128_after_zeros(bound, s, steps);
            }
            return answer_128_after_16(bound, sum_lanes(first, 16), s, steps);
        }
        let only = window_below_16(s);
        found_or_empty(u128::from(only.number), only.len as usize)
    }

    // ghost below_ten = { λ byte. Prim.grind (arith, nat_tests) };
}

// The window of 16 bytes of at least as many. A word sums up to 8 digits.
#[inline(always)]
// #[tactic(auto, using(atoi_core::proofs::lemmas::LaneWindows::window_of_lanes, crate::proofs::lemmas::LaneWindows::few_counted))]
fn long_window(s: &[u8]) -> Window
    // requires { 16 ≤ length s.now }
    // ensures { result ≡ window_of decimal_table 16 s.now }
{
    let lanes = load_lanes(s);
    let mask = non_digits(lanes);
    if mask == 0 {
        return lane_window(lanes, 16);
    }
    let len = mask.trailing_zeros();
    let number = if len <= 8 {
        value_in_word(load_full(s), len)
    } else {
        sum_lanes(lanes, len)
    };
    Window::not_full(len, number)
}

// The window of 16 bytes of fewer. The number of 8 to 15 digits need not wait for their count.
#[inline(always)]
pub(crate) fn window_below_16(s: &[u8]) -> Window
    // requires { length s.now < 16 }
    // ensures { result ≡ window_of decimal_table 16 s.now }
{
    if s.len() >= 8 {
        return match number_of_8_to_15(s) {
            Some(number) => Window::not_full(s.len() as u32, number),
            None => read_lanes(s),
        };
    }
    window_below_8(s)
}

#[inline(always)]
pub(crate) fn read_window(s: &[u8]) -> Window
    // ensures { result ≡ window_of decimal_table 16 s.now }
{
    if s.len() >= 16 {
        read_lanes(s)
    } else {
        window_below_16(s)
    }
}

// `read_window` by lanes for any number of bytes.
#[inline(always)]
// #[tactic(auto, using(atoi_core::proofs::lemmas::LaneWindows::window_of_lanes))]
fn read_lanes(s: &[u8]) -> Window
    // ensures { result ≡ window_of decimal_table 16 s.now }
{
    lane_window(load_lanes(s), 16)
}

// Returns the window of `size` bytes, from lanes that hold at most these; the other lanes are 0.
#[inline] fn lane_window(lanes: u8x16, size: u32) -> Window
    // ensures { result ≡ lane_window size lanes }
{
    let mask = non_digits(lanes);
    if mask == 0 {
        // Sixteen digits need no shuffle.
        return Window {
            len: 16,
            zeroes: if size == 16 { zeroes_lanes(lanes) } else { 0 },
            number: sum_lanes(lanes, 16),
        };
    }
    let len = mask.trailing_zeros();
    let zeroes = if size < 16 && len == size {
        zeroes_lanes(lanes)
    } else {
        0
    };
    Window {
        len,
        zeroes,
        number: sum_lanes(lanes, len),
    }
}
