//! The operations of `arrays.rs` by NEON.

use core::arch::aarch64 as arch;
use core::arch::aarch64::{int64x2_t, uint8x8_t, uint8x16_t, uint16x8_t, uint32x4_t, uint64x2_t};

pub type Bytes = uint8x16_t;

pub use self::{
    vaddq_u8 as add_8, vandq_u8 as and, vceqq_u8 as eq_8, vcgeq_u8 as ge_8, vorrq_u8 as or,
    vqtbl1q_u8 as swizzle, vsubq_u8 as sub_8,
};

intrinsics! {
    "neon" {
        fn vcreate_u8(bytes: u64) -> uint8x8_t;
        fn vcombine_u8(low: uint8x8_t, high: uint8x8_t) -> uint8x16_t;
        fn vget_low_u8(v: uint8x16_t) -> uint8x8_t;
        fn vgetq_lane_u64<const LANE: i32>(v: uint64x2_t) -> u64;
        fn vreinterpretq_u16_u8(v: uint8x16_t) -> uint16x8_t;
        fn vreinterpretq_u64_u8(v: uint8x16_t) -> uint64x2_t;
        fn vreinterpretq_s64_u8(v: uint8x16_t) -> int64x2_t;
        fn vreinterpretq_u8_u16(v: uint16x8_t) -> uint8x16_t;
        fn vreinterpretq_u8_u32(v: uint32x4_t) -> uint8x16_t;
        fn vreinterpretq_u8_u64(v: uint64x2_t) -> uint8x16_t;
        fn vandq_u8(v: uint8x16_t, w: uint8x16_t) -> uint8x16_t;
        fn vorrq_u8(v: uint8x16_t, w: uint8x16_t) -> uint8x16_t;
        fn vaddq_u8(v: uint8x16_t, w: uint8x16_t) -> uint8x16_t;
        fn vsubq_u8(v: uint8x16_t, w: uint8x16_t) -> uint8x16_t;
        fn vceqq_u8(v: uint8x16_t, w: uint8x16_t) -> uint8x16_t;
        fn vcgeq_u8(v: uint8x16_t, w: uint8x16_t) -> uint8x16_t;
        fn vpaddq_u8(v: uint8x16_t, w: uint8x16_t) -> uint8x16_t;
        fn vqtbl1q_u8(v: uint8x16_t, indices: uint8x16_t) -> uint8x16_t;
        fn vmull_u8(v: uint8x8_t, w: uint8x8_t) -> uint16x8_t;
        fn vmull_high_u8(v: uint8x16_t, w: uint8x16_t) -> uint16x8_t;
        fn vmulq_u16(v: uint16x8_t, w: uint16x8_t) -> uint16x8_t;
        fn vpaddq_u16(v: uint16x8_t, w: uint16x8_t) -> uint16x8_t;
        fn vpaddlq_u16(v: uint16x8_t) -> uint32x4_t;
        fn vaddq_u64(v: uint64x2_t, w: uint64x2_t) -> uint64x2_t;
        fn vaddvq_u64(v: uint64x2_t) -> u64;
        fn vnegq_s64(v: int64x2_t) -> int64x2_t;
        fn vshlq_u64(v: uint64x2_t, counts: int64x2_t) -> uint64x2_t;
    }
}

#[inline(always)]
pub fn from_array(array: [u8; 16]) -> Bytes {
    // One number, since rustc 1.95 loads a constant array byte by byte.
    let number = u128::from_le_bytes(array);
    vcombine_u8(vcreate_u8(number as u64), vcreate_u8((number >> 64) as u64))
}

#[inline(always)]
pub fn to_array(v: Bytes) -> [u8; 16] {
    let words = vreinterpretq_u64_u8(v);
    let (low, high) = (vgetq_lane_u64::<0>(words), vgetq_lane_u64::<1>(words));
    (u128::from(high) << 64 | u128::from(low)).to_le_bytes()
}

#[inline(always)]
pub fn bitmask(v: Bytes) -> u64 {
    // Keeps one bit of each lane, and adds up the bits of eight neighbouring lanes.
    let bits = [1, 2, 4, 8, 16, 32, 64, 128, 1, 2, 4, 8, 16, 32, 64, 128];
    let ones = vandq_u8(v, from_array(bits));
    let twos = vpaddq_u8(ones, ones);
    let fours = vpaddq_u8(twos, twos);
    let eights = vpaddq_u8(fours, fours);
    vgetq_lane_u64::<0>(vreinterpretq_u64_u8(eights)) & 0xFFFF
}

#[inline(always)]
pub fn dot4(v: Bytes, weights: Bytes) -> Bytes {
    let low = vmull_u8(vget_low_u8(v), vget_low_u8(weights));
    let pairs = vpaddq_u16(low, vmull_high_u8(v, weights));
    vreinterpretq_u8_u32(vpaddlq_u16(pairs))
}

#[inline(always)]
pub fn mul_16(v: Bytes, w: Bytes) -> Bytes {
    let product = vmulq_u16(vreinterpretq_u16_u8(v), vreinterpretq_u16_u8(w));
    vreinterpretq_u8_u16(product)
}

#[inline(always)]
pub fn add_64(v: Bytes, w: Bytes) -> Bytes {
    let sum = vaddq_u64(vreinterpretq_u64_u8(v), vreinterpretq_u64_u8(w));
    vreinterpretq_u8_u64(sum)
}

#[inline(always)]
pub fn mul_64(v: Bytes, w: Bytes) -> Bytes {
    // NEON has no product of 64 bits.
    let (v, w) = (vreinterpretq_u64_u8(v), vreinterpretq_u64_u8(w));
    let low = vgetq_lane_u64::<0>(v).wrapping_mul(vgetq_lane_u64::<0>(w));
    let high = vgetq_lane_u64::<1>(v).wrapping_mul(vgetq_lane_u64::<1>(w));
    vcombine_u8(vcreate_u8(low), vcreate_u8(high))
}

#[inline(always)]
pub fn shr_64(v: Bytes, counts: Bytes) -> Bytes {
    // A shift to the left by a negative count is one to the right.
    let counts = vnegq_s64(vreinterpretq_s64_u8(counts));
    vreinterpretq_u8_u64(vshlq_u64(vreinterpretq_u64_u8(v), counts))
}

#[inline(always)]
pub fn sum_64(v: Bytes) -> u64 {
    vaddvq_u64(vreinterpretq_u64_u8(v))
}
