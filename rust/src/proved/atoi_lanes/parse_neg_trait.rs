/* Made by .ci/translate from crates/atoi_lanes/src/parse_neg_trait.rt. Do not edit. */ //! Parses of the digits of a negative number, by the engine of this crate.
// ghost use Rattle.std.specs.Prelude.{◌≡◌, ◌≤◌, true, IfOk, length};
// ghost use Rattle.atoi_core.specs.Answer.{typed_answer, typed_prefix_answer, whole_answer, prefix_answer};
// ghost use Rattle.atoi_core.specs.Digit.{decimal_table};

use crate::proved::atoi_lanes::default_engine::{DefaultEngine, prefix_neg, whole_neg};
use crate::proved::atoi_core::{Parsed, Signed, Steps};

/// A signed type that is parsed from the digits of a negative number.
///
/// ```
/// use torkettle::{ParseNeg, parse_neg};
///
/// fn below_zero<T: ParseNeg>(digits: &[u8]) -> Option<T> {
///     parse_neg::<T, false>(digits).ok()
/// }
/// assert_eq!(below_zero::<i8>(b"128"), Some(-128));
/// assert_eq!(below_zero::<i8>(b"129"), None);
/// ```
pub trait ParseNeg: Signed {
    /// [`parse_neg`](crate::parse_neg) with its flag as an argument.
    ///
    /// # Errors
    ///
    /// As for `parse_neg`.
    fn atoi_simd_parse_neg(s: &[u8], skip_zeroes: bool) -> Parsed<'_, Self>
        /* ensures answer { typed_answer Self.number result
            ≡ whole_answer decimal_table Self.int_type true skip_zeroes s.now } */;

    /// [`parse_prefix_neg`](crate::parse_prefix_neg) with its flag as an argument.
    ///
    /// # Errors
    ///
    /// As for `parse_prefix_neg`.
    fn atoi_simd_parse_prefix_neg(s: &[u8], skip_zeroes: bool) -> Parsed<'_, (Self, usize)>
        // ensures answer { typed_prefix_answer Self.number result
        //     ≡ prefix_answer decimal_table Self.int_type true skip_zeroes s.now }
        /* ensures within { IfOk result (λ found. found.1 ≤ length s.now) } */;
}

impl ParseNeg for i8 {
    #[cfg_attr(not(debug_assertions), inline(always))]
    fn atoi_simd_parse_neg(s: &[u8], skip: bool) -> Parsed<'_, Self> {
        whole_neg::<DefaultEngine, i8>(skip, s, &mut Steps::new())
    }

    #[cfg_attr(not(debug_assertions), inline(always))]
    fn atoi_simd_parse_prefix_neg(s: &[u8], skip: bool) -> Parsed<'_, (Self, usize)> {
        prefix_neg::<DefaultEngine, i8>(skip, s, &mut Steps::new())
    }
}

impl ParseNeg for i16 {
    #[cfg_attr(not(debug_assertions), inline(always))]
    fn atoi_simd_parse_neg(s: &[u8], skip: bool) -> Parsed<'_, Self> {
        whole_neg::<DefaultEngine, i16>(skip, s, &mut Steps::new())
    }

    #[cfg_attr(not(debug_assertions), inline(always))]
    fn atoi_simd_parse_prefix_neg(s: &[u8], skip: bool) -> Parsed<'_, (Self, usize)> {
        prefix_neg::<DefaultEngine, i16>(skip, s, &mut Steps::new())
    }
}

impl ParseNeg for i32 {
    #[cfg_attr(not(debug_assertions), inline(always))]
    fn atoi_simd_parse_neg(s: &[u8], skip: bool) -> Parsed<'_, Self> {
        whole_neg::<DefaultEngine, i32>(skip, s, &mut Steps::new())
    }

    #[cfg_attr(not(debug_assertions), inline(always))]
    fn atoi_simd_parse_prefix_neg(s: &[u8], skip: bool) -> Parsed<'_, (Self, usize)> {
        prefix_neg::<DefaultEngine, i32>(skip, s, &mut Steps::new())
    }
}

impl ParseNeg for isize {
    #[cfg_attr(not(debug_assertions), inline(always))]
    fn atoi_simd_parse_neg(s: &[u8], skip: bool) -> Parsed<'_, Self> {
        whole_neg::<DefaultEngine, isize>(skip, s, &mut Steps::new())
    }

    #[cfg_attr(not(debug_assertions), inline(always))]
    fn atoi_simd_parse_prefix_neg(s: &[u8], skip: bool) -> Parsed<'_, (Self, usize)> {
        prefix_neg::<DefaultEngine, isize>(skip, s, &mut Steps::new())
    }
}

impl ParseNeg for i64 {
    #[cfg_attr(not(debug_assertions), inline(always))]
    fn atoi_simd_parse_neg(s: &[u8], skip: bool) -> Parsed<'_, Self> {
        whole_neg::<DefaultEngine, i64>(skip, s, &mut Steps::new())
    }

    #[cfg_attr(not(debug_assertions), inline(always))]
    fn atoi_simd_parse_prefix_neg(s: &[u8], skip: bool) -> Parsed<'_, (Self, usize)> {
        prefix_neg::<DefaultEngine, i64>(skip, s, &mut Steps::new())
    }
}

impl ParseNeg for i128 {
    #[cfg_attr(not(debug_assertions), inline(always))]
    fn atoi_simd_parse_neg(s: &[u8], skip: bool) -> Parsed<'_, Self> {
        whole_neg::<DefaultEngine, i128>(skip, s, &mut Steps::new())
    }

    #[cfg_attr(not(debug_assertions), inline(always))]
    fn atoi_simd_parse_prefix_neg(s: &[u8], skip: bool) -> Parsed<'_, (Self, usize)> {
        prefix_neg::<DefaultEngine, i128>(skip, s, &mut Steps::new())
    }
}
