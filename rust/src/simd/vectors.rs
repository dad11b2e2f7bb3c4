//! The types of vectors, with the operators and functions that `lanes` calls.

use super::operations::{self, Bytes};
use core::ops::{Add, BitAnd, BitOr, Mul, Shr, Sub};

// Defines vectors of sixteen bytes and what all of them have. The bytes of a lane are in
// little-endian order. A lane times `ones` fills 64 bits with that lane.
macro_rules! vectors {
    ($($name:ident of $lane:ty, $ones:literal;)*) => {$(
        /// A vector of sixteen bytes. Its name says how long a lane is, and how many there are.
        #[allow(non_camel_case_types)]
        #[derive(Clone, Copy)]
        pub struct $name(Bytes);

        #[allow(dead_code)] // Not every vector is made or read in each way.
        impl $name {
            /// Returns the vector whose lanes are all `value`.
            #[inline(always)]
            pub fn splat(value: $lane) -> Self {
                Self(u64x2::from_array([u64::from(value) * $ones; 2]).0)
            }

            /// Returns the vector with these bytes, the lowest byte of each lane first.
            #[inline(always)]
            pub fn from_le_bytes(bytes: u8x16) -> Self {
                Self(bytes.0)
            }

            /// Returns the bytes of the lanes, the lowest byte of each lane first.
            #[inline(always)]
            pub fn to_le_bytes(self) -> u8x16 {
                u8x16(self.0)
            }
        }
    )*};
}

vectors! {
    u8x16 of u8, 0x0101_0101_0101_0101;
    u16x8 of u16, 0x0001_0001_0001_0001;
    u32x4 of u32, 0x0000_0001_0000_0001;
    u64x2 of u64, 1;
}

/// The result of a comparison: each lane is 255 where it is true, and otherwise 0.
#[derive(Clone, Copy)]
pub struct Mask(Bytes);

// Defines an operator by an operation.
macro_rules! operators {
    ($($operator:ident::$method:ident of $name:ident is $operation:ident;)*) => {$(
        impl $operator for $name {
            type Output = Self;

            #[inline(always)]
            fn $method(self, other: Self) -> Self {
                Self(operations::$operation(self.0, other.0))
            }
        }
    )*};
}

// As in `std::simd`, sums, differences and products wrap.
operators! {
    Add::add of u8x16 is add_8;
    Sub::sub of u8x16 is sub_8;
    BitAnd::bitand of u8x16 is and;
    BitOr::bitor of u8x16 is or;
    BitAnd::bitand of Mask is and;
    Mul::mul of u16x8 is mul_16;
    Add::add of u64x2 is add_64;
    Mul::mul of u64x2 is mul_64;
    BitAnd::bitand of u64x2 is and;
    // The lanes of the second vector are below 64.
    Shr::shr of u64x2 is shr_64;
}

#[allow(dead_code)] // `lanes` need not call all.
impl u8x16 {
    /// Returns the vector with these lanes.
    #[inline(always)]
    pub fn from_array(array: [u8; 16]) -> u8x16 {
        u8x16(operations::from_array(array))
    }

    /// Returns the lanes.
    #[inline(always)]
    pub fn to_array(self) -> [u8; 16] {
        operations::to_array(self.0)
    }

    /// Returns the vector with the first sixteen elements of `slice`.
    ///
    /// # Panics
    ///
    /// If there are fewer.
    #[inline(always)]
    pub fn from_slice(slice: &[u8]) -> u8x16 {
        match slice.first_chunk() {
            Some(array) => u8x16::from_array(*array),
            None => panic!("a vector has sixteen elements"),
        }
    }

    /// Returns in which lanes both vectors are equal.
    #[inline(always)]
    pub fn simd_eq(self, other: u8x16) -> Mask {
        Mask(operations::eq_8(self.0, other.0))
    }

    /// Returns in which lanes `self` is at least `other`.
    #[inline(always)]
    pub fn simd_ge(self, other: u8x16) -> Mask {
        Mask(operations::ge_8(self.0, other.0))
    }

    /// Returns in which lanes `self` is at most `other`.
    #[inline(always)]
    pub fn simd_le(self, other: u8x16) -> Mask {
        other.simd_ge(self)
    }

    /// Returns the lanes at these indices. Each index is below 16, or is at least 128 and gives 0.
    #[inline(always)]
    pub fn swizzle_dyn_within<const BLOCK: usize>(self, indices: u8x16) -> u8x16 {
        const { assert!(BLOCK == 16) };
        u8x16(operations::swizzle(self.0, indices.0))
    }

    /// Returns the sums of the products of lanes 0 to 3, 4 to 7, 8 to 11, and 12 to 15. Each weight
    /// is below 128, and the products of lanes 0 and 1, of 2 and 3, and so on, add up to less than
    /// 2^15.
    #[inline(always)]
    pub fn dot4(self, weights: u8x16) -> u32x4 {
        u32x4(operations::dot4(self.0, weights.0))
    }
}

impl Mask {
    /// Returns one bit for each lane, the lowest bit for the first.
    #[inline(always)]
    pub fn to_bitmask(self) -> u64 {
        operations::bitmask(self.0)
    }
}

#[allow(dead_code)] // `lanes` need not call all.
impl u64x2 {
    /// Returns the vector with these lanes.
    #[inline(always)]
    pub fn from_array([low, high]: [u64; 2]) -> u64x2 {
        let number = u128::from(high) << 64 | u128::from(low);
        u64x2(operations::from_array(number.to_le_bytes()))
    }

    /// Returns the lanes.
    #[inline(always)]
    pub fn to_array(self) -> [u64; 2] {
        let number = u128::from_le_bytes(operations::to_array(self.0));
        [number as u64, (number >> 64) as u64]
    }

    /// Returns the sum of the lanes, which wraps.
    #[inline(always)]
    pub fn reduce_sum(self) -> u64 {
        operations::sum_64(self.0)
    }
}
