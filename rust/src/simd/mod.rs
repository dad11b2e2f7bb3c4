//! The vectors of sixteen bytes that `lanes` uses, for stable Rust. They have the names of Rattle's
//! `std::simd`, and as many of its functions as `lanes` calls.
//!
//! `vectors.rs` has the types, and `operations` computes with their bytes: `x86.rs` by SSE2, and by
//! SSSE3 where the target has it, `neon.rs` by NEON, and `arrays.rs` on every other target. No proof
//! covers these files. `rust/tests/simd` compares each operation with its meaning, lane by lane.

pub mod prelude {
    pub use super::vectors::*;
}

// Makes intrinsics safe functions. None takes a pointer. Each exists only on targets with its feature.
#[allow(unused_macros)] // On arrays, there are none.
macro_rules! intrinsics {
    ($($feature:literal {$(
        fn $name:ident$(<const $constant:ident: i32>)?($($argument:ident: $type:ty),*) -> $result:ty;
    )*})*) => {$($(
        #[cfg(target_feature = $feature)]
        #[inline(always)]
        #[allow(unsafe_code)]
        pub fn $name$(<const $constant: i32>)?($($argument: $type),*) -> $result {
            // SAFETY: the intrinsic needs nothing but the feature, which the target has.
            unsafe { arch::$name$(::<$constant>)?($($argument),*) }
        }
    )*)*};
}

#[cfg(all(target_arch = "x86_64", target_feature = "sse2"))]
#[path = "x86.rs"]
mod operations;

#[cfg(all(target_arch = "aarch64", target_feature = "neon", target_endian = "little"))]
#[path = "neon.rs"]
mod operations;

#[cfg(not(any(
    all(target_arch = "x86_64", target_feature = "sse2"),
    all(target_arch = "aarch64", target_feature = "neon", target_endian = "little"),
)))]
#[path = "arrays.rs"]
mod operations;

mod vectors;
