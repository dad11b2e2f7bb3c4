//! The vectors as this target computes with them.

#[path = "../../src/simd/mod.rs"]
mod simd;

use simd::prelude;

#[path = "checks.rs"]
mod checks;
