//! The engine of the package's words, and the parses that their traits call.

pub(crate) use atoi_core::{prefix_neg, prefix_pos};
pub(crate) use atoi_fast::{parse_prefix_text, parse_text, whole_neg, whole_pos};

pub(crate) type DefaultEngine = atoi_fast::Swar;
