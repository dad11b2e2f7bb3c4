//! The engine of the C library, and the parses that its traits call.

pub(crate) use atoi_core::{prefix_neg, whole_neg};
pub(crate) use atoi_fast::called::{parse_prefix_text, parse_text, prefix_pos, whole_pos};

pub(crate) type DefaultEngine = atoi_fast::Swar;
