/* Made by .ci/translate from rust/default_engine/atoi_lanes.rs. Do not edit. */ //! The engine of the package's lanes, and the parses that their traits call.

pub(crate) use crate::proved::atoi_core::{prefix_neg, prefix_pos};
pub(crate) use crate::proved::atoi_fast::{parse_prefix_text, parse_text, whole_neg, whole_pos};

pub(crate) type DefaultEngine = crate::proved::atoi_fast::Vectors;
