//! The vectors of `core::simd`, which has no `swizzle_dyn_within` and no `dot4`.

mod prelude {
    pub use super::Bytes;
    pub use core::simd::ToBytes;
    pub use core::simd::num::SimdUint;
    pub use core::simd::prelude::*;
}

#[path = "checks.rs"]
mod checks;

use core::simd::simd_swizzle;
use prelude::*;

/// What the checks call of the functions that `core::simd` lacks.
pub trait Bytes {
    fn swizzle_dyn_within<const BLOCK: usize>(self, indices: Self) -> Self;
    fn dot4(self, weights: Self) -> u32x4;
}

impl Bytes for u8x16 {
    // The index of another lane gives 0.
    fn swizzle_dyn_within<const BLOCK: usize>(self, indices: u8x16) -> u8x16 {
        self.swizzle_dyn(indices)
    }

    fn dot4(self, weights: u8x16) -> u32x4 {
        let products = self.cast::<u32>() * weights.cast::<u32>();
        simd_swizzle!(products, [0, 4, 8, 12])
            + simd_swizzle!(products, [1, 5, 9, 13])
            + simd_swizzle!(products, [2, 6, 10, 14])
            + simd_swizzle!(products, [3, 7, 11, 15])
    }
}
