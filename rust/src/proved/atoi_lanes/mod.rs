/* Made by .ci/translate from crates/atoi_lanes/src/lib.rt. Do not edit. */ //! The ten functions of `atoi_simd`, with the same results, computed with vectors of 16 and 32 bytes.
//! Callers find them in the module `lanes` of `atoi_simd`.
// #![tactic(auto)]

mod default_engine;
mod functions;
// pub mod kernels;
// mod lanes;
mod parse_neg_trait;
mod parse_pos_trait;
mod parse_trait;
// mod wide_lanes;
// mod window_32;

pub use crate::proved::atoi_lanes::functions::{
    parse, parse_any, parse_any_neg, parse_any_pos, parse_neg, parse_pos, parse_prefix,
    parse_prefix_neg, parse_prefix_pos, parse_skipped,
};
// pub use crate::lanes::Lanes;
pub use crate::proved::atoi_lanes::parse_neg_trait::ParseNeg;
pub use crate::proved::atoi_lanes::parse_trait::Parse;
// pub use crate::wide_lanes::{prefix_64_lanes, prefix_128_lanes};
pub use crate::proved::atoi_core::AtoiSimdError;
