/* Made by .ci/translate from crates/atoi_formats/src/digit_counts.rt. Do not edit. */ //! A number with a limited number of digits.
// ghost use Rattle.std.specs.Prelude.{◌≡◌, ◌++◌, ℕ, ℤ, List, false, IfSome, IfNone};
// ghost use Rattle.atoi_core.specs.Text.{DigitsWrite};
// ghost use Rattle.atoi_formats.specs.Formats.{AreLeading, HasDigitsBetween};

use crate::proved::atoi_simd::laws::prefixes_and_rests;
use crate::proved::atoi_simd::{Parse, parse_prefix_pos};

/// Reads the digits that `text` begins with, but at most `most` of them. Returns their number, and what
/// follows them, which begins with a digit only if `most` digits were read.
///
/// Returns `None` if there is no digit, if there are fewer than `least` digits, or if the number is out
/// of the range of `T`.
///
/// ```
/// use torkettle::formats::digits_between;
///
/// assert_eq!(digits_between::<u8>(b"7:30", 1, 2), Some((7, &b":30"[..])));
/// assert_eq!(digits_between::<u8>(b"0730", 1, 2), Some((7, &b"30"[..])));
/// assert_eq!(digits_between::<u8>(b"7:30", 2, 2), None);
/// ```
///
/// **Proved:** all results are [as specified](crate::specification#formats-formatsantt-in-atoi_formats).
///
/// See the [guide](crate::guide#read-other-formats).
#[inline]
pub fn digits_between<T: Parse>(text: &[u8], least: usize, most: usize) -> Option<(T, &[u8])>
    // ensures some { IfSome result (λ found.
    //     HasDigitsBetween T.int_type text.now least most (T.number found.0) found.1.now) }
    // ensures only { IfSome result (λ found. (number : ℤ) (digits rest : List ℕ)
    //     → DigitsWrite T.int_type false digits number → AreLeading digits rest least most
    //     → text.now ≡ digits ++ rest → (number ≡ T.number found.0) × (rest ≡ found.1.now)) }
    // ensures none { IfNone result ((number : ℤ) (digits rest : List ℕ)
    //     → DigitsWrite T.int_type false digits number → AreLeading digits rest least most
    //     → ¬ (text.now ≡ digits ++ rest)) }
{
    prefixes_and_rests::<T>();
    let (front, _) = text.split_at(text.len().min(most));
    let (number, count) = parse_prefix_pos::<T, true>(front).ok()?;
    let (_, rest) = text.split_at(count);
    if count < least {
        None
    } else {
        Some((number, rest))
    }
}
