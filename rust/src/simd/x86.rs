//! The operations of `arrays.rs` by SSE2 and, where the target has it, by SSSE3.

use core::arch::x86_64 as arch;
use core::arch::x86_64::__m128i;

pub type Bytes = __m128i;

pub use self::{
    _mm_add_epi8 as add_8, _mm_add_epi64 as add_64, _mm_and_si128 as and, _mm_cmpeq_epi8 as eq_8,
    _mm_mullo_epi16 as mul_16, _mm_or_si128 as or, _mm_sub_epi8 as sub_8,
};

#[cfg(target_feature = "ssse3")]
pub use self::_mm_shuffle_epi8 as swizzle;

intrinsics! {
    "sse2" {
        fn _mm_set_epi64x(high: i64, low: i64) -> __m128i;
        fn _mm_cvtsi128_si64(v: __m128i) -> i64;
        fn _mm_unpackhi_epi64(v: __m128i, w: __m128i) -> __m128i;
        fn _mm_unpacklo_epi64(v: __m128i, w: __m128i) -> __m128i;
        fn _mm_and_si128(v: __m128i, w: __m128i) -> __m128i;
        fn _mm_or_si128(v: __m128i, w: __m128i) -> __m128i;
        fn _mm_add_epi8(v: __m128i, w: __m128i) -> __m128i;
        fn _mm_sub_epi8(v: __m128i, w: __m128i) -> __m128i;
        fn _mm_cmpeq_epi8(v: __m128i, w: __m128i) -> __m128i;
        fn _mm_max_epu8(v: __m128i, w: __m128i) -> __m128i;
        fn _mm_movemask_epi8(v: __m128i) -> i32;
        fn _mm_set1_epi16(lane: i16) -> __m128i;
        fn _mm_mullo_epi16(v: __m128i, w: __m128i) -> __m128i;
        fn _mm_madd_epi16(v: __m128i, w: __m128i) -> __m128i;
        fn _mm_srli_epi16<const COUNT: i32>(v: __m128i) -> __m128i;
        fn _mm_add_epi32(v: __m128i, w: __m128i) -> __m128i;
        fn _mm_add_epi64(v: __m128i, w: __m128i) -> __m128i;
        fn _mm_mul_epu32(v: __m128i, w: __m128i) -> __m128i;
        fn _mm_slli_epi64<const COUNT: i32>(v: __m128i) -> __m128i;
        fn _mm_srli_epi64<const COUNT: i32>(v: __m128i) -> __m128i;
        fn _mm_srl_epi64(v: __m128i, count: __m128i) -> __m128i;
    }
    "ssse3" {
        fn _mm_shuffle_epi8(v: __m128i, indices: __m128i) -> __m128i;
        fn _mm_maddubs_epi16(v: __m128i, weights: __m128i) -> __m128i;
    }
}

#[inline(always)]
pub fn from_array(array: [u8; 16]) -> Bytes {
    // One number, since rustc 1.95 loads a constant array byte by byte.
    let number = u128::from_le_bytes(array);
    _mm_set_epi64x((number >> 64) as i64, number as i64)
}

#[inline(always)]
pub fn to_array(v: Bytes) -> [u8; 16] {
    let (low, high) = (_mm_cvtsi128_si64(v), _mm_cvtsi128_si64(_mm_unpackhi_epi64(v, v)));
    (u128::from(high as u64) << 64 | u128::from(low as u64)).to_le_bytes()
}

#[inline(always)]
pub fn ge_8(v: Bytes, w: Bytes) -> Bytes {
    _mm_cmpeq_epi8(v, _mm_max_epu8(v, w))
}

#[inline(always)]
pub fn bitmask(v: Bytes) -> u64 {
    _mm_movemask_epi8(v) as u64
}

#[cfg(not(target_feature = "ssse3"))]
#[inline(always)]
pub fn swizzle(v: Bytes, indices: Bytes) -> Bytes {
    let (bytes, indices) = (to_array(v), to_array(indices));
    from_array(indices.map(|index| {
        // All bits are set if the index is below 128.
        let is_selected = (index >> 7).wrapping_sub(1);
        bytes[usize::from(index % 16)] & is_selected
    }))
}

#[cfg(target_feature = "ssse3")]
#[inline(always)]
pub fn dot4(v: Bytes, weights: Bytes) -> Bytes {
    let pairs = _mm_maddubs_epi16(v, weights);
    _mm_madd_epi16(pairs, _mm_set1_epi16(1))
}

#[cfg(not(target_feature = "ssse3"))]
#[inline(always)]
pub fn dot4(v: Bytes, weights: Bytes) -> Bytes {
    let even = |v| _mm_and_si128(v, _mm_set1_epi16(255));
    let odd = |v| _mm_srli_epi16::<8>(v);
    let sums_of_even = _mm_madd_epi16(even(v), even(weights));
    _mm_add_epi32(sums_of_even, _mm_madd_epi16(odd(v), odd(weights)))
}

#[inline(always)]
pub fn mul_64(v: Bytes, w: Bytes) -> Bytes {
    // rustc 1.95 leaves out the products of upper halves that it knows to be 0.
    let upper = |v| _mm_srli_epi64::<32>(v);
    let middle = _mm_add_epi64(_mm_mul_epu32(upper(v), w), _mm_mul_epu32(v, upper(w)));
    _mm_add_epi64(_mm_mul_epu32(v, w), _mm_slli_epi64::<32>(middle))
}

#[inline(always)]
pub fn shr_64(v: Bytes, counts: Bytes) -> Bytes {
    // Each shifts both lanes by one count.
    let by_first = _mm_srl_epi64(v, counts);
    let by_second = _mm_srl_epi64(v, _mm_unpackhi_epi64(counts, counts));
    _mm_unpacklo_epi64(by_first, _mm_unpackhi_epi64(by_second, by_second))
}

#[inline(always)]
pub fn sum_64(v: Bytes) -> u64 {
    _mm_cvtsi128_si64(_mm_add_epi64(v, _mm_unpackhi_epi64(v, v))) as u64
}
