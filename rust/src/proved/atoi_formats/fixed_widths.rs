/* Made by .ci/translate from crates/atoi_formats/src/fixed_widths.rt. Do not edit. */ //! A number with a fixed number of digits.
// ghost use Rattle.std.specs.Prelude.{◌≡◌, ◌++◌, ℕ, ℤ, List, length, false, IfSome, IfNone};
// ghost use Rattle.atoi_core.specs.Text.{DigitsWrite};
// ghost use Rattle.atoi_formats.specs.Formats.{HasWidth};

use crate::proved::atoi_simd::laws::one_number;
use crate::proved::atoi_simd::{Parse, parse_pos};

/// Reads the first `width` bytes of `text` as digits. Returns their number, and what follows them,
/// which may be another digit.
///
/// Returns `None` if `width` is 0, if there are fewer bytes, if one of them is not a digit, or if the
/// number is out of the range of `T`.
///
/// ```
/// use torkettle::formats::fixed_width;
///
/// assert_eq!(fixed_width::<u16>(b"20240229", 4), Some((2024, &b"0229"[..])));
/// assert_eq!(fixed_width::<u8>(b"7:30", 2), None);
/// ```
///
/// See the [guide](crate::guide#read-other-formats).
///
/// **Proved:** the result is the only number and rest that fit, or `None` if and only if no number in
/// range fits (see the [specification](crate::specification#formats-formatsantt-in-atoi_formats)).
#[inline]
pub fn fixed_width<T: Parse>(text: &[u8], width: usize) -> Option<(T, &[u8])>
    // ensures some { IfSome result (λ found.
    //     HasWidth T.int_type text.now width (T.number found.0) found.1.now) }
    // ensures only { IfSome result (λ found. (number : ℤ) (digits rest : List ℕ)
    //     → DigitsWrite T.int_type false digits number → length digits ≡ width
    //     → text.now ≡ digits ++ rest → (number ≡ T.number found.0) × (rest ≡ found.1.now)) }
    // ensures none { IfNone result ((number : ℤ) (digits rest : List ℕ)
    //     → DigitsWrite T.int_type false digits number → length digits ≡ width
    //     → ¬ (text.now ≡ digits ++ rest)) }
{
    one_number::<T>();
    let (digits, rest) = text.split_at_checked(width)?;
    match parse_pos::<T, true>(digits) {
        Ok(number) => Some((number, rest)),
        Err(_) => None,
    }
}
