//! What generic code can call by the traits `Parse` and `ParseNeg`.

use torkettle::{Parse, ParseNeg};

// The bounds bring functions whose contracts in Rattle have conditions.
#[test]
fn numbers_out_of_range_do_not_panic() {
    fn unsigned<T: Parse>(magnitude: u128) -> [T; 2] {
        [T::from_pos(magnitude), T::from_parts(true, magnitude)]
    }
    fn numbers<T: ParseNeg>(magnitude: u128) -> [T; 3] {
        [T::from_pos(magnitude), T::from_neg(magnitude), T::from_parts(true, magnitude)]
    }
    for bits in 0..128 {
        for magnitude in [1_u128 << bits, (1 << bits) - 1, !(1 << bits)] {
            let (plus, minus) = (magnitude as i128, (magnitude as i128).wrapping_neg());
            assert_eq!(numbers::<i8>(magnitude), [plus as i8, minus as i8, minus as i8]);
            assert_eq!(numbers::<i32>(magnitude), [plus as i32, minus as i32, minus as i32]);
            assert_eq!(numbers::<i64>(magnitude), [plus as i64, minus as i64, minus as i64]);
            assert_eq!(numbers::<i128>(magnitude), [plus, minus, minus]);
            assert_eq!(unsigned::<u8>(magnitude), [magnitude as u8; 2]);
            assert_eq!(unsigned::<u64>(magnitude), [magnitude as u64; 2]);
            assert_eq!(unsigned::<u128>(magnitude), [magnitude; 2]);
        }
    }
}

#[cfg(feature = "lanes")]
#[test]
fn code_that_is_generic_over_words_and_lanes() {
    fn both<T: torkettle::Parse + torkettle::lanes::Parse>(text: &[u8]) -> (Option<T>, Option<T>) {
        let by_lanes = torkettle::lanes::parse::<T, true, true>(text).ok();
        (torkettle::parse::<T, true, true>(text).ok(), by_lanes)
    }

    assert_eq!(both::<u64>(b"18446744073709551615"), (Some(u64::MAX), Some(u64::MAX)));
    assert_eq!(both::<i8>(b"128"), (None, None));
}
