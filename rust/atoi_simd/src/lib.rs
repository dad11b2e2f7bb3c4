//! Torkettle under the name and version of `atoi_simd` 0.18.1, so that `[patch.crates-io]` can put it
//! in the place of that crate, inside your dependencies too:
//!
//! ```toml
//! [patch.crates-io]
//! atoi_simd = { path = "../torkettle/rust/atoi_simd" }
//! ```
//!
//! Check first whether a dependency relies on one of the differences in `docs/DIFFERENCES.md`. The
//! one that matters most: the length that `parse_prefix` returns counts a `+` that it has consumed.
#![no_std]

pub use torkettle::*;
