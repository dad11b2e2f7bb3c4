//! The vectors on arrays.

#[path = "../../src/simd/arrays.rs"]
mod operations;
#[path = "../../src/simd/vectors.rs"]
mod vectors;

mod prelude {
    pub use super::vectors::*;
}

#[path = "checks.rs"]
mod checks;
