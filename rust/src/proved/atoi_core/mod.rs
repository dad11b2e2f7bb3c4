/* Made by .ci/translate from crates/atoi_core/src/lib.rt. Do not edit. */ //! The parsers that `atoi_simd` and `atoi_lanes` share, over any engine, and the definitions of what
//! they return.
// #![tactic(auto)]

mod after_zeros;
mod calls;
mod engine;
mod error;
mod error_kinds;
pub mod laws;
mod narrow;
mod number;
pub mod powers;
mod text;
mod wide;
pub mod wide_answer;
pub mod words;

pub use crate::proved::atoi_core::after_zeros::window_after_zeros;
pub use crate::proved::atoi_core::calls::{
    parse_prefix_text, parse_text, prefix_neg, prefix_pos, prefix_with_sign, take_sign,
    whole_by_size, whole_neg, whole_pos,
};
pub use crate::proved::atoi_core::engine::Engine;
pub use crate::proved::atoi_core::engine::alphabet::Alphabet;
pub use crate::proved::atoi_core::engine::plain::{Plain, narrow_whole};
pub use crate::proved::atoi_core::engine::steps::Steps;
pub use crate::proved::atoi_core::engine::window::Window;
pub use crate::proved::atoi_core::error::{AtoiSimdError, Parsed, clones_are_the_same};
pub use crate::proved::atoi_core::narrow::{narrow_answer, narrow_prefix, narrow_whole_windows};
pub use crate::proved::atoi_core::number::{Number, Signed, greatest_magnitude};
pub use crate::proved::atoi_core::text::decimal;
pub use crate::proved::atoi_core::wide::{whole_64, whole_128};
pub use crate::proved::atoi_core::words::Words;
