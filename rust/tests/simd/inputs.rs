//! The lanes on which operations are compared: half of them are ends of ranges, and the others are
//! random.

use std::array::from_fn;
use torkettle_common::random::Random;

const PAIRS: usize = 20_000;

/// Calls `check` with every pair of bytes in some lane, and then with pairs of vectors. Some bytes are
/// those between which `lanes` decides.
pub fn for_bytes(check: impl Fn([u8; 16], [u8; 16])) {
    for first in 0..=255 {
        for start in (0..=255).step_by(16) {
            check([first; 16], from_fn(|lane| start + lane as u8));
        }
    }
    let ends = [0, 1, 15, 47, 48, 57, 58, 127, 128, 255];
    for_pairs(&ends, |random| random.bits() as u8, check);
}

/// Calls `check` with pairs of vectors.
pub fn for_u16s(check: impl Fn([u16; 8], [u16; 8])) {
    let ends = [0, 1, 255, 256, 0xA01, 0x7FFF, 0x8000, 0xFFFF];
    for_pairs(&ends, |random| random.bits() as u16, check);
}

/// Calls `check` with pairs of vectors. The random lanes are of any length.
pub fn for_u64s(check: impl Fn([u64; 2], [u64; 2])) {
    let ends = [0, 1, 63, 0xFFFF_FFFF, 1 << 32, 1 << 63, u64::MAX];
    for_pairs(&ends, |random| random.bits() >> random.below(64), check);
}

fn for_pairs<T: Copy, const LANES: usize>(
    ends: &[T],
    any: fn(&mut Random) -> T,
    check: impl Fn([T; LANES], [T; LANES]),
) {
    let mut random = Random::new(16);
    let mut lane = |_| if random.one_in(2) { random.pick(ends) } else { any(&mut random) };
    for _ in 0..PAIRS {
        check(from_fn(&mut lane), from_fn(&mut lane));
    }
}
