/* Made by .ci/translate from crates/atoi_formats/src/lib.rt. Do not edit. */ //! Numbers in the formats of files and protocols: a number with an optional sign, a number and the byte
//! after it, a number with a fixed or limited number of digits, a number as `{}` prints it, an integer
//! of JSON.
//!
//! Every function serves the twelve integer types of Rust. It returns `Some` or `Ok` exactly if the text
//! has its format, which a caller proves from its clauses alone.
// #![tactic(auto)]

mod ascii_numbers;
mod canonical_numbers;
mod digit_counts;
mod expected_byte;
mod fixed_widths;
mod int_error;
mod json_integers;
mod numbers;
mod numbers_then;

pub use crate::proved::atoi_formats::ascii_numbers::{from_ascii, from_ascii_prefix};
pub use crate::proved::atoi_formats::canonical_numbers::{canonical, canonical_prefix, canonical_then};
pub use crate::proved::atoi_formats::digit_counts::digits_between;
pub use crate::proved::atoi_formats::expected_byte::strip_byte;
pub use crate::proved::atoi_formats::fixed_widths::fixed_width;
pub use crate::proved::atoi_formats::int_error::IntError;
pub use crate::proved::atoi_formats::json_integers::json_integer;
pub use crate::proved::atoi_formats::numbers::number;
pub use crate::proved::atoi_formats::numbers_then::{digits_then, number_then};
