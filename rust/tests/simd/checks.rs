//! What each operation is to return, for the vectors of `super::prelude`.

use super::prelude::*;
use crate::simd::inputs::{for_bytes, for_u16s, for_u64s};
use std::array::from_fn;

fn vectors(v: [u8; 16], w: [u8; 16]) -> (u8x16, u8x16) {
    (u8x16::from_array(v), u8x16::from_array(w))
}

// The vector of these lanes, by their bytes.
fn of_u16s(lanes: [u16; 8]) -> u16x8 {
    let bytes = from_fn(|byte| lanes[byte / 2].to_le_bytes()[byte % 2]);
    u16x8::from_le_bytes(u8x16::from_array(bytes))
}

fn to_u16s(v: u16x8) -> [u16; 8] {
    let bytes = v.to_le_bytes().to_array();
    from_fn(|lane| u16::from_le_bytes([bytes[2 * lane], bytes[2 * lane + 1]]))
}

#[test]
fn a_vector_keeps_its_lanes() {
    for_bytes(|v, w| {
        assert_eq!(u8x16::from_array(v).to_array(), v);
        let both = [v, w].concat();
        let at = usize::from(v[0] % 17);
        assert_eq!(u8x16::from_slice(&both[at..]).to_array()[..], both[at..at + 16]);
        assert_eq!(u8x16::splat(v[0]).to_array(), [v[0]; 16]);
    });
    for_u16s(|v, _| assert_eq!(to_u16s(u16x8::splat(v[0])), [v[0]; 8]));
    for_u64s(|v, _| {
        assert_eq!(u64x2::from_array(v).to_array(), v);
        assert_eq!(u64x2::splat(v[0]).to_array(), [v[0]; 2]);
    });
}

#[test]
#[should_panic]
fn fifteen_bytes_are_no_vector() {
    let _ = u8x16::from_slice(&[0; 15]);
}

#[test]
fn a_lane_begins_with_its_lowest_byte() {
    for_u64s(|v, _| {
        let bytes = from_fn(|byte| v[byte / 8].to_le_bytes()[byte % 8]);
        assert_eq!(u64x2::from_array(v).to_le_bytes().to_array(), bytes);
        assert_eq!(u64x2::from_le_bytes(u8x16::from_array(bytes)).to_array(), v);
    });
    for_bytes(|v, w| {
        let (a, b) = vectors(v, w);
        assert_eq!(u16x8::from_le_bytes(a).to_le_bytes().to_array(), v);
        assert_eq!(u32x4::from_le_bytes(b).to_le_bytes().to_array(), w);
        let lane = [v[0], v[1], w[0], w[1]];
        let lanes = u32x4::splat(u32::from_le_bytes(lane)).to_le_bytes();
        assert_eq!(lanes.to_array(), from_fn(|byte| lane[byte % 4]));
    });
}

#[test]
fn bytes_are_added_and_subtracted_modulo_256() {
    for_bytes(|v, w| {
        let (a, b) = vectors(v, w);
        assert_eq!((a + b).to_array(), from_fn(|lane| v[lane].wrapping_add(w[lane])));
        assert_eq!((a - b).to_array(), from_fn(|lane| v[lane].wrapping_sub(w[lane])));
    });
}

#[test]
fn bits_are_joined() {
    for_bytes(|v, w| {
        let (a, b) = vectors(v, w);
        assert_eq!((a & b).to_array(), from_fn(|lane| v[lane] & w[lane]));
        assert_eq!((a | b).to_array(), from_fn(|lane| v[lane] | w[lane]));
    });
    for_u64s(|v, w| {
        let both = u64x2::from_array(v) & u64x2::from_array(w);
        assert_eq!(both.to_array(), [v[0] & w[0], v[1] & w[1]]);
    });
}

#[test]
fn comparisons_set_the_bit_of_each_lane() {
    for_bytes(|v, w| {
        let (a, b) = vectors(v, w);
        let bits = |compare: fn(&u8, &u8) -> bool| {
            (0..16).map(|lane| u64::from(compare(&v[lane], &w[lane])) << lane).sum::<u64>()
        };
        assert_eq!(a.simd_eq(b).to_bitmask(), bits(u8::eq));
        assert_eq!(a.simd_ge(b).to_bitmask(), bits(u8::ge));
        assert_eq!(a.simd_le(b).to_bitmask(), bits(u8::le));
        let both = a.simd_ge(b) & a.simd_le(u8x16::splat(b'9'));
        assert_eq!(both.to_bitmask(), bits(|v, w| v >= w && *v <= b'9'));
    });
}

#[test]
fn an_index_takes_a_lane_or_0() {
    for_bytes(|v, w| {
        let indices = w.map(|index| if index < 128 { index % 16 } else { index });
        let (a, b) = vectors(v, indices);
        let expected = indices.map(|index| v.get(usize::from(index)).copied().unwrap_or(0));
        assert_eq!(a.swizzle_dyn_within::<16>(b).to_array(), expected);
    });
}

#[test]
fn four_products_are_added_up() {
    for_bytes(|v, w| {
        let product = |w: [u8; 16], lane| u32::from(v[lane]) * u32::from(w[lane]);
        let mut weights = w.map(|weight| weight % 128);
        for lane in (0..16).step_by(2) {
            if product(weights, lane) + product(weights, lane + 1) >= 1 << 15 {
                weights[lane] = 0;
            }
        }
        let (a, b) = vectors(v, weights);
        let sum = |lane| (4 * lane..4 * lane + 4).map(|lane| product(weights, lane)).sum::<u32>();
        let expected = from_fn(|byte| sum(byte / 4).to_le_bytes()[byte % 4]);
        assert_eq!(a.dot4(b).to_le_bytes().to_array(), expected);
    });
}

#[test]
fn products_of_16_bits_wrap() {
    for_u16s(|v, w| {
        let product = of_u16s(v) * of_u16s(w);
        assert_eq!(to_u16s(product), from_fn(|lane| v[lane].wrapping_mul(w[lane])));
    });
}

#[test]
fn sums_and_products_of_64_bits_wrap() {
    for_u64s(|v, w| {
        let (a, b) = (u64x2::from_array(v), u64x2::from_array(w));
        assert_eq!((a + b).to_array(), from_fn(|lane| v[lane].wrapping_add(w[lane])));
        assert_eq!((a * b).to_array(), from_fn(|lane| v[lane].wrapping_mul(w[lane])));
        assert_eq!(a.reduce_sum(), v[0].wrapping_add(v[1]));
    });
}

#[test]
fn each_lane_is_shifted_by_its_count() {
    for_u64s(|v, w| {
        let counts = w.map(|count| count % 64);
        let shifted = u64x2::from_array(v) >> u64x2::from_array(counts);
        assert_eq!(shifted.to_array(), [v[0] >> counts[0], v[1] >> counts[1]]);
    });
}
