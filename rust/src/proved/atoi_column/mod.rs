/* Made by .ci/translate from crates/atoi_column/src/lib.rt. Do not edit. */ //! Columns of decimal integers: the fields of a byte slice, separated by one byte.
// #![tactic(auto)]

mod clones;
mod column;
mod error;
mod field_error;
mod fields;
mod guesses;
pub mod laws;
mod text;
mod words;

pub use crate::proved::atoi_column::column::{Column, is_separator};
pub use crate::proved::atoi_column::error::ColumnError;
pub use crate::proved::atoi_column::field_error::FieldError;
pub use crate::proved::atoi_column::fields::Fields;
