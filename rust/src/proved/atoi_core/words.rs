/* Made by .ci/translate from crates/atoi_core/src/words.rt. Do not edit. */ //! Functions on words, and the engine that reads windows by them. A *word* holds eight or sixteen
//! bytes, the first one lowest.
// ghost use Rattle.std.specs.Prelude.{◌≡◌, ◌<◌, ◌≤◌, length, take};
// ghost use Rattle.atoi_core.specs.Digit.{decimal_table};
// ghost use Rattle.atoi_core.specs.Run.{run_len, zeros};
// ghost use Rattle.atoi_core.specs.Words.{low_bytes, low_value, word_of};
// ghost use Rattle.std.specs.Int.{from_le_bytes, w64};
// ghost use Rattle.std.proofs.Common.{arith};
// ghost use Rattle.std.proofs.lemmas.Bool.Decides.{nat_tests};

use crate::proved::atoi_core::engine::Engine;
use crate::proved::atoi_core::engine::steps::Steps;
use crate::proved::atoi_core::engine::window::Window;
use crate::proved::atoi_core::powers::power_of_ten;

/// The engine for decimal digits that reads windows by the functions of this module.
pub struct Words;

impl Engine for Words {
    // ghost table = { decimal_table };

    #[inline] fn window(s: &[u8], steps: &mut Steps) -> Window {
        steps.tick();
        let first = load_8(s);
        let len = check_len_8(first);
        if len < 8 {
            return Window::not_full(len, value_8(first, len));
        }
        let next = load_8(&s[8..]);
        let more = check_len_8(next);
        if more < 8 {
            let high = process_8(first, 8) * power_of_ten(more);
            return Window::not_full(8 + more, high + value_8(next, more));
        }
        let both = (u128::from(next) << 64) | u128::from(first);
        Window {
            len: 16,
            zeroes: len_zeroes_128(both),
            number: process_16(both, 16),
        }
    }

    #[inline] fn window_8(s: &[u8], steps: &mut Steps) -> Window {
        steps.tick();
        let word = load_8(s);
        let len = check_len_8(word);
        Window {
            len,
            zeroes: if len == 8 { len_zeroes(word) } else { 0 },
            number: value_8(word, len),
        }
    }

    // ghost below_ten = { λ byte. Prim.grind (arith, nat_tests) };
}

// `process_8`, also for no bytes.
// #[tactic(auto, using(crate::proofs::lemmas::LoadedWords::sum_of_none))]
#[inline] fn value_8(word: u64, len: u32) -> u64
    // requires { len ≤ 8 }
    // ensures sum { result ≡ low_value (low_bytes len word) }
    // ensures most { result ≤ 166666665 }
{
    if len == 0 { 0 } else { process_8(word, len) }
}

/// Returns the word of the first 8 bytes of `s`. A missing byte is 0.
// #[tactic(auto, using(std::proofs::lemmas::List::take_all, crate::proofs::lemmas::LoadedWords::word_of_first, crate::proofs::lemmas::LoadedWords::word_from_eight))]
#[inline] pub fn load_8(s: &[u8]) -> u64
    // ensures { result ≡ word_of (take 8 s.now) }
{
    if let Some(bytes) = s.first_chunk::<8>() {
        return u64::from_le_bytes(*bytes);
    }
    match (s.first_chunk::<4>(), s.last_chunk::<4>()) {
        (Some(first), Some(last)) => {
            let low = u64::from(u32::from_le_bytes(*first));
            // The bytes that both hold are shifted out.
            let high = u64::from(u32::from_le_bytes(*last)) >> (64 - 8 * s.len());
            (high << 32) | low
        }
        _ => load_few(s),
    }
}

#[inline] fn load_few(s: &[u8]) -> u64
    // requires { length s.now < 4 }
    // ensures { result ≡ from_le_bytes w64 s.now }
{
    match s {
        [] => 0,
        [a] => u64::from(*a),
        [a, b] => u64::from(*a) + (u64::from(*b) << 8),
        [a, b, c, ..] => u64::from(*a) + (u64::from(*b) << 8) + (u64::from(*c) << 16),
    }
}

const UPPER_HALVES: u64 = 0xF0F0_F0F0_F0F0_F0F0;

/// Returns how many bytes of `val`, from the lowest on, are digits.
// #[tactic(auto, using(crate::proofs::lemmas::WordRuns::leading_digits_of_8))]
#[inline] pub fn check_len_8(val: u64) -> u32
    // ensures len { result ≡ run_len decimal_table (low_bytes 8 val) }
    // ensures most { result ≤ 8 }
{
    // A digit has 3 as its upper half, and keeps it when six is added. A byte that carries is no digit.
    let upper_halves = val & UPPER_HALVES;
    let with_six = val.wrapping_add(0x0606_0606_0606_0606);
    let upper_with_six = (with_six & UPPER_HALVES) >> 4;
    let marks = (upper_with_six | upper_halves) ^ 0x3333_3333_3333_3333;
    marks.trailing_zeros() / 8
}

/// Returns the number that the lowest `len` bytes of `val` spell, the lowest byte first. Each byte
/// counts modulo 16.
// #[tactic(auto, using(crate::proofs::lemmas::WordFields::sum_8, crate::proofs::lemmas::WordFields::sum_most))]
#[inline] pub fn process_8(val: u64, len: u32) -> u64
    // requires low { 1 ≤ len }
    // requires high { len ≤ 8 }
    // ensures sum { result ≡ low_value (low_bytes len val) }
    // ensures most { result ≤ 166666665 }
{
    // Each product adds to a field the one below it: 10 times for 8 bits, 100 for 16, 10,000 for 32.
    let ones = (val << (64 - 8 * len)) & 0x0F0F_0F0F_0F0F_0F0F;
    let tens = (ones.wrapping_mul(0xA01) >> 8) & 0x00FF_00FF_00FF_00FF;
    let hundreds = (tens.wrapping_mul(0x64_0001) >> 16) & 0x0000_FFFF_0000_FFFF;
    hundreds.wrapping_mul(0x2710_0000_0001) >> 32
}

/// `process_8` for a word of sixteen bytes.
// #[tactic(auto, using(crate::proofs::lemmas::WordFields::sum_16, crate::proofs::lemmas::WordFields::sum_most))]
#[inline] pub fn process_16(val: u128, len: u32) -> u64
    // requires low { 1 ≤ len }
    // requires high { len ≤ 16 }
    // ensures sum { result ≡ low_value (low_bytes len val) }
    // ensures most { result ≤ 16666666666666665 }
{
    let ones = (val << (128 - 8 * len)) & 0x0F0F_0F0F_0F0F_0F0F_0F0F_0F0F_0F0F_0F0F;
    let tens = (ones.wrapping_mul(0xA01) >> 8) & 0x00FF_00FF_00FF_00FF_00FF_00FF_00FF_00FF;
    let hundreds = (tens.wrapping_mul(0x64_0001) >> 16) & 0x0000_FFFF_0000_FFFF_0000_FFFF_0000_FFFF;
    let ten_thousands = (hundreds.wrapping_mul(0x2710_0000_0001) >> 32)
        & 0x0000_0000_FFFF_FFFF_0000_0000_FFFF_FFFF;
    (ten_thousands.wrapping_mul(0x5F5_E100_0000_0000_0000_0001) >> 64) as u64
}

/// Returns how many bytes of `val`, from the lowest on, are the digit zero.
// #[tactic(auto, using(crate::proofs::lemmas::WordRuns::zeros_of_8))]
#[inline] pub fn len_zeroes(val: u64) -> u32
    // ensures zeroes { result ≡ zeros decimal_table (low_bytes 8 val) }
    // ensures most { result ≤ 8 }
{
    (val ^ 0x3030_3030_3030_3030).trailing_zeros() / 8
}

/// `len_zeroes` for a word of sixteen bytes.
// #[tactic(auto, using(crate::proofs::lemmas::WordRuns::zeros_of_16))]
#[inline] pub fn len_zeroes_128(val: u128) -> u32
    // ensures zeroes { result ≡ zeros decimal_table (low_bytes 16 val) }
    // ensures most { result ≤ 16 }
{
    (val ^ 0x3030_3030_3030_3030_3030_3030_3030_3030).trailing_zeros() / 8
}
