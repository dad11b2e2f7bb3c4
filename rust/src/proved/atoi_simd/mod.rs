/* Made by .ci/translate from crates/atoi_simd/src/lib.rt. Do not edit. */ //! Decimal integers from byte slices, for the twelve integer types of Rust, exact and without
//! allocation.
//!
//! Names, flags, results and errors are as in the Rust crate `atoi_simd` 0.18.1, as compared by
//! tests; `docs/DIFFERENCES.md` lists what differs.
//!
//! These functions read eight bytes at a time. The functions in `lanes` return the same results, read 16
//! or 32 bytes at a time, and are faster for long numbers of 64 and 128 bits.
// #![tactic(auto)]

mod default_engine;
mod functions;
mod parse_neg_trait;
mod parse_pos_trait;
mod parse_trait;

pub use crate::proved::atoi_simd::functions::{
    parse, parse_any, parse_any_neg, parse_any_pos, parse_neg, parse_pos, parse_prefix,
    parse_prefix_neg, parse_prefix_pos, parse_skipped,
};
pub use crate::proved::atoi_simd::parse_neg_trait::ParseNeg;
pub use crate::proved::atoi_simd::parse_trait::Parse;
pub use crate::proved::atoi_core::{AtoiSimdError, Number, Signed, laws};
pub use crate::proved::atoi_lanes as lanes;
