/* Made by .ci/translate from crates/atoi_fast/src/loads.rt. Do not edit. */ //! Words that are loaded from a slice. A missing byte is 0.
// ghost use Rattle.std.specs.Prelude.{◌≡◌, ◌-◌, ◌*◌, ◌^◌, ◌<◌, ◌≤◌, ◌++◌, length, take, drop, replicate};
// ghost use Rattle.std.specs.Int.Bits.{bit_xor};
// ghost use Rattle.atoi_core.specs.Words.{word_of};

use crate::proved::atoi_fast::digits::FOUR_ZEROS;

// What is read of a slice of fewer than four bytes, and a factor for each length, in one table, to which
// one register points.
static SHORT: [[u8; 8]; 9] = [
    [0, 48, 48, 48, 48, 48, 0, 0],
    [0, 0, 0, 0, 0, 0, 0, 1],
    [0, 0, 0, 0, 0, 0, 1, 0],
    [0, 0, 0, 0, 0, 1, 0, 0],
    [0, 0, 0, 0, 1, 0, 0, 0],
    [0, 0, 0, 1, 0, 0, 0, 0],
    [0, 0, 1, 0, 0, 0, 0, 0],
    [0, 1, 0, 0, 0, 0, 0, 0],
    [1, 0, 0, 0, 0, 0, 0, 0],
];

/// Returns the word of `s` filled with zeros at the front, xor `ZEROS`, without a branch on the length.
#[inline(always)]
// #[tactic(auto, using(crate::proofs::lemmas::LoadedWords::flipped_joined))]
pub(crate) fn load_flipped(s: &[u8]) -> u64
    // requires some { 2 ≤ length s.now }
    // requires few { length s.now ≤ 8 }
    // ensures { result ≡ bit_xor (word_of (replicate (8 - length s.now) 48 ++ s.now)) 0x3030_3030_3030_3030 }
{
    let short: &[u8] = &SHORT[0];
    let fours = if s.len() < 4 { short } else { s };
    let front = (u32::from(s[0]) | load_four_from(fours, 0)) ^ FOUR_ZEROS;
    let back = (load_last_four(fours) | (load_last_two(s) << 16)) ^ FOUR_ZEROS;
    // A product takes less time than a shift.
    let shifted = u64::from(front).wrapping_mul(factor_of(s.len()));
    shifted | (u64::from(back) << 32)
}

/// Returns the factor that moves the lowest of `len` bytes to where `load_flipped` has the first byte.
#[inline(always)]
pub(crate) fn factor_of(len: usize) -> u64
    // requires some { 1 ≤ len }
    // requires few { len ≤ 8 }
    // ensures { result ≡ 2 ^ (64 - 8 * len) }
{
    u64::from_le_bytes(SHORT[len])
}

/// Returns the word of the first 8 bytes from `at` on. If fewer follow, shifts the last 8 bytes of `s`
/// down.
#[inline(always)]
// #[tactic(auto, using(crate::proofs::lemmas::LoadedWords::word_after_all))]
pub(crate) fn load_from(s: &[u8], at: usize) -> u64
    // requires enough { 8 ≤ length s.now }
    // requires inside { at ≤ length s.now }
    // requires low { at ≤ 16 }
    // ensures { result ≡ word_of (take 8 (drop at s.now)) }
{
    if s.len() == at {
        return 0;
    }
    match s.last_chunk::<8>() {
        Some(last) if s.len() < at + 8 => { u64::from_le_bytes(*last) >> (8 * (at + 8 - s.len())) }
        Some(_) => load_full(&s[at..]),
        None => 0,
    }
}

/// `load_from` for four bytes, of which the first is there.
#[inline(always)]
// #[tactic(auto, using(atoi_core::proofs::lemmas::LoadedWords::word_of_rest, atoi_core::proofs::lemmas::LoadedWords::word_from_four))]
pub(crate) fn load_four_from(s: &[u8], at: usize) -> u32
    // requires enough { 4 ≤ length s.now }
    // requires inside { at < length s.now }
    // requires low { at ≤ 16 }
    // ensures { result ≡ word_of (take 4 (drop at s.now)) }
{
    if s.len() < at + 4 {
        return load_last_four(s) >> (8 * (at + 4 - s.len()));
    }
    match s[at..].first_chunk::<4>() {
        Some(first) => u32::from_le_bytes(*first),
        None => 0,
    }
}

// #[tactic(auto, using(atoi_core::proofs::lemmas::LoadedWords::word_from_four))]
#[inline] pub(crate) fn load_last_four(s: &[u8]) -> u32
    // requires { 4 ≤ length s.now }
    // ensures { result ≡ word_of (drop (length s.now - 4) s.now) }
{
    match s.last_chunk::<4>() {
        Some(last) => u32::from_le_bytes(*last),
        None => 0,
    }
}

// #[tactic(auto, using(crate::proofs::lemmas::LoadedWords::word_from_two))]
#[inline] fn load_last_two(s: &[u8]) -> u32
    // requires { 2 ≤ length s.now }
    // ensures { result ≡ word_of (drop (length s.now - 2) s.now) }
{
    match s.last_chunk::<2>() {
        Some(last) => u32::from(u16::from_le_bytes(*last)),
        None => 0,
    }
}

/// Returns the word of the first 8 bytes.
// #[tactic(auto, using(atoi_core::proofs::lemmas::LoadedWords::word_of_first))]
#[inline] pub(crate) fn load_full(s: &[u8]) -> u64
    // requires { 8 ≤ length s.now }
    // ensures { result ≡ word_of (take 8 s.now) }
{
    match s.first_chunk::<8>() {
        Some(first) => u64::from_le_bytes(*first),
        None => 0,
    }
}

// #[tactic(auto, using(crate::proofs::lemmas::LoadedWords::word_of_last))]
#[inline] pub(crate) fn load_last(s: &[u8]) -> u64
    // requires { 8 ≤ length s.now }
    // ensures { result ≡ word_of (drop (length s.now - 8) s.now) }
{
    match s.last_chunk::<8>() {
        Some(last) => u64::from_le_bytes(*last),
        None => 0,
    }
}
