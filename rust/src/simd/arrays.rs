//! The operations on arrays, for targets without SSE2 and NEON. rustc 1.95 makes slow code of them.
//!
//! The number at the end of a name is how many bits each lane has. The lowest byte of a lane is first.

use core::array::from_fn;

pub type Bytes = [u8; 16];

/// Returns the vector with these bytes.
#[inline(always)]
pub fn from_array(array: [u8; 16]) -> Bytes {
    array
}

/// Returns the bytes.
#[inline(always)]
pub fn to_array(v: Bytes) -> [u8; 16] {
    v
}

/// Returns the bits that are set in both.
#[inline(always)]
pub fn and(v: Bytes, w: Bytes) -> Bytes {
    from_fn(|lane| v[lane] & w[lane])
}

/// Returns the bits that are set in one or both.
#[inline(always)]
pub fn or(v: Bytes, w: Bytes) -> Bytes {
    from_fn(|lane| v[lane] | w[lane])
}

/// Returns the sums, which wrap.
#[inline(always)]
pub fn add_8(v: Bytes, w: Bytes) -> Bytes {
    from_fn(|lane| v[lane].wrapping_add(w[lane]))
}

/// Returns the differences, which wrap.
#[inline(always)]
pub fn sub_8(v: Bytes, w: Bytes) -> Bytes {
    from_fn(|lane| v[lane].wrapping_sub(w[lane]))
}

/// Returns 255 where both are equal, and 0 elsewhere.
#[inline(always)]
pub fn eq_8(v: Bytes, w: Bytes) -> Bytes {
    from_fn(|lane| if v[lane] == w[lane] { 255 } else { 0 })
}

/// Returns 255 where the first is at least the second, and 0 elsewhere.
#[inline(always)]
pub fn ge_8(v: Bytes, w: Bytes) -> Bytes {
    from_fn(|lane| if v[lane] >= w[lane] { 255 } else { 0 })
}

/// Returns one bit for each lane, which is 255 or 0. The lowest bit is that of the first lane.
#[inline(always)]
pub fn bitmask(v: Bytes) -> u64 {
    let bits = v.iter().enumerate().map(|(lane, byte)| u64::from(byte & 1) << lane);
    bits.sum()
}

/// Returns the lanes at these indices. Each index is below 16, or is at least 128 and gives 0.
#[inline(always)]
pub fn swizzle(v: Bytes, indices: Bytes) -> Bytes {
    indices.map(|index| if index < 128 { v[usize::from(index % 16)] } else { 0 })
}

/// Returns, as lanes of 32 bits, the sums of the products of four neighbouring lanes each. Each weight
/// is below 128, and the first two and the last two of these products add up to less than 2^15.
#[inline(always)]
pub fn dot4(v: Bytes, weights: Bytes) -> Bytes {
    let mut sums = [0; 16];
    for at in (0..16).step_by(4) {
        let products = (at..at + 4).map(|lane| u32::from(v[lane]) * u32::from(weights[lane]));
        sums[at..at + 4].copy_from_slice(&products.sum::<u32>().to_le_bytes());
    }
    sums
}

/// Returns the products, which wrap.
#[inline(always)]
pub fn mul_16(v: Bytes, w: Bytes) -> Bytes {
    let mut products = [0; 16];
    for at in (0..16).step_by(2) {
        let lane = |v: Bytes| u16::from_le_bytes([v[at], v[at + 1]]);
        products[at..at + 2].copy_from_slice(&lane(v).wrapping_mul(lane(w)).to_le_bytes());
    }
    products
}

/// Returns the sums, which wrap.
#[inline(always)]
pub fn add_64(v: Bytes, w: Bytes) -> Bytes {
    on_words(v, w, u64::wrapping_add)
}

/// Returns the products, which wrap.
#[inline(always)]
pub fn mul_64(v: Bytes, w: Bytes) -> Bytes {
    on_words(v, w, u64::wrapping_mul)
}

/// Returns the lanes, shifted to the right. Each count is below 64.
#[inline(always)]
pub fn shr_64(v: Bytes, counts: Bytes) -> Bytes {
    on_words(v, counts, |lane, count| lane >> (count % 64))
}

/// Returns the sum of both lanes, which wraps.
#[inline(always)]
pub fn sum_64(v: Bytes) -> u64 {
    let [low, high] = words(v);
    low.wrapping_add(high)
}

#[inline(always)]
fn on_words(v: Bytes, w: Bytes, operation: fn(u64, u64) -> u64) -> Bytes {
    let ([v_low, v_high], [w_low, w_high]) = (words(v), words(w));
    let (low, high) = (operation(v_low, w_low), operation(v_high, w_high));
    (u128::from(high) << 64 | u128::from(low)).to_le_bytes()
}

#[inline(always)]
fn words(v: Bytes) -> [u64; 2] {
    let number = u128::from_le_bytes(v);
    [number as u64, (number >> 64) as u64]
}
