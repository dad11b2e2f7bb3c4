/* Made by .ci/translate from crates/atoi_fast/src/vectors/window_32.rt. Do not edit. */ //! Windows of 32 bytes, in two vectors of sixteen.
// ghost use Rattle.std.specs.Prelude.{◌≡◌, ◌+◌, ◌==◌, if◌then◌else◌, drop};
// ghost use Rattle.atoi_core.specs.Digit.{decimal_table};
// ghost use Rattle.atoi_core.specs.Reading.{Reading};
// ghost use Rattle.atoi_core.specs.Run.{zeros};
// ghost use Rattle.atoi_core.specs.Lanes.{padded_start};

use crate::proved::atoi_fast::vectors::bytes::{len_lanes, load_lanes, shuffle, sum_lanes, zeroes_lanes};
use crate::proved::atoi_core::Steps;
use crate::proved::atoi_core::powers::append_digits;
use crate::simd::prelude::*;

/// What one read reports about the first 32 bytes of a slice, or about all if there are fewer.
#[derive(Clone, Copy)]
pub(crate) struct Window32 {
    /// How many digits the bytes begin with.
    pub(crate) len: u32,
    /// How many zeros the bytes begin with.
    pub(crate) zeroes: u32,
    pub(crate) number: u128,
}

#[inline(always)]
pub(crate) fn window_32(s: &[u8], steps: &mut Steps) -> Window32
    // ensures reading { Reading decimal_table 32 s.now result.len result.zeroes result.number }
    // ensures one_step { steps.new ≡ steps.old + 1 }
{
    steps.tick();
    let first = load_lanes(s);
    let len = len_lanes(first);
    if len < 16 {
        return Window32 {
            len,
            zeroes: zeroes_lanes(first),
            number: u128::from(sum_lanes(first, len)),
        };
    }
    let second = load_second(s);
    let more = len_lanes(second);
    let high = sum_lanes(first, 16);
    let number = if more == 0 {
        u128::from(high)
    } else {
        append_digits(high, more, sum_lanes(second, more))
    };
    Window32 {
        len: 16 + more,
        zeroes: zeroes_of_both(first, second),
        number,
    }
}

// Returns the 16 bytes after the first 16. A missing byte is 0.
// #[tactic(auto, using(crate::proofs::lemmas::Shuffles::after_first_16))]
#[inline] pub(crate) fn load_second(s: &[u8]) -> u8x16
    // ensures { result ≡ padded_start 16 (drop 16 s.now) }
{
    if s.len() >= 32 {
        return load_lanes(&s[16..]);
    }
    if s.len() < 16 {
        return u8x16::splat(0);
    }
    // One shuffle moves the last 16 to the start.
    shuffle(u8x16::from_slice(&s[s.len() - 16..]), 48 - s.len())
}

// Returns how many zeros the lanes of both begin with, mostly 0.
#[inline] fn zeroes_of_both(first: u8x16, second: u8x16) -> u32
    // ensures { result ≡ (if zeros decimal_table first == 16 then 16 + zeros decimal_table second
    //     else zeros decimal_table first) }
{
    if first.to_array()[0] != b'0' {
        return 0;
    }
    let zeroes = zeroes_lanes(first);
    if zeroes == 16 {
        16 + zeroes_lanes(second)
    } else {
        zeroes
    }
}
