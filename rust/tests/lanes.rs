//! The tests of the ten functions: with the feature `lanes`, of those of `lanes`, and of their vectors. They are a
//! program of their own, as `.ci/cargo` builds them for several processors. With `--cfg core_simd`, which takes a nightly
//! compiler or `RUSTC_BOOTSTRAP=1`, the vectors are made of `core::simd`, too.

#![cfg_attr(core_simd, feature(portable_simd))]
// `simd` tests the same operations by several files.
#![allow(unexpected_cfgs, clippy::duplicate_mod)]

mod generic;
mod recorded;
mod rules;
mod simd;

// What makes any call, of the module `calls` beside it.
#[path = "../../tools/compare/exports/ask.rs"]
mod ask;

#[cfg(not(feature = "lanes"))]
use torkettle as calls;
#[cfg(feature = "lanes")]
use torkettle::lanes as calls;
