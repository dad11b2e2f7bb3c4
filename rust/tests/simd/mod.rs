//! Compares each operation of `rust/src/simd` with what it means, lane by lane: as this target computes
//! it, and on arrays.

mod by_arrays;
#[cfg(core_simd)]
mod by_core;
mod by_target;
mod inputs;
