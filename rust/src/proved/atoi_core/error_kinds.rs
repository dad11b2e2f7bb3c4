/* Made by .ci/translate from crates/atoi_core/src/error_kinds.rt. Do not edit. */ //! Where an error is in the parsed text, and its kind as `str::parse` tells it.
// ghost use Rattle.std.specs.Prelude.{◌≡◌};
// ghost use Rattle.atoi_core.specs.Refusal.{refusal_of};
// ghost use Rattle.atoi_core.specs.ErrorKinds.{kind_of, offset_in};

use crate::proved::atoi_core::error::AtoiSimdError;
use core::num::IntErrorKind;

impl AtoiSimdError<'_> {
    /// Returns the offset in `text`, the parsed slice, at which the digits end (`Invalid64` and `Invalid128`),
    /// or at which the slice of the error begins (`Size` and `Overflow`). It is `None` for `Empty`, and if the
    /// slice of the error is longer than `text`. See the [guide](crate::guide#errors).
    ///
    /// **Proved:** the result is [as specified](crate::specification#errors-refusalantt-errortextantt-errorkindsantt).
    ///
    /// ```
    /// use torkettle::parse;
    ///
    /// let offset = |text| parse::<u8, true, true>(text).unwrap_err().offset_in(text);
    /// assert_eq!(offset(b"+12x"), Some(3));
    /// assert_eq!(offset(b"+256"), Some(1));
    /// assert_eq!(offset(b"x"), None);
    /// ```
    #[inline] pub fn offset_in(&self, text: &[u8]) -> Option<usize>
        // ensures { result ≡ offset_in (refusal_of self.now) text.now }
    {
        let (index, input) = match *self {
            AtoiSimdError::Empty => return None,
            AtoiSimdError::Size(_, input) | AtoiSimdError::Overflow(input) => (0, input),
            AtoiSimdError::Invalid64(_, index, input) => (index, input),
            AtoiSimdError::Invalid128(_, index, input) => (index, input),
        };
        text.len().checked_sub(input.len())?.checked_add(index)
    }

    /// Returns the kind of the error, in our tests the kind that `str::parse` returns for the same text.
    /// `text` is the slice that `parse::<T, true, true>` got, with its sign. See the [guide](crate::guide#errors).
    ///
    /// **Proved:** the result is [as specified](crate::specification#errors-refusalantt-errortextantt-errorkindsantt).
    ///
    /// ```
    /// use std::num::IntErrorKind;
    /// use torkettle::parse;
    ///
    /// let kind = |text| parse::<i8, true, true>(text).unwrap_err().kind(text);
    /// assert_eq!(kind(b""), IntErrorKind::Empty);
    /// assert_eq!(kind(b"-"), IntErrorKind::InvalidDigit);
    /// assert_eq!(kind(b"128"), IntErrorKind::PosOverflow);
    /// assert_eq!(kind(b"-129"), IntErrorKind::NegOverflow);
    /// ```
    #[inline] pub fn kind(&self, text: &[u8]) -> IntErrorKind
        // ensures { result ≡ kind_of (refusal_of self.now) text.now }
    {
        match (self, text) {
            (AtoiSimdError::Empty, []) => IntErrorKind::Empty,
            (AtoiSimdError::Size(..) | AtoiSimdError::Overflow(_), [b'-', ..]) => {
                IntErrorKind::NegOverflow
            }
            (AtoiSimdError::Size(..) | AtoiSimdError::Overflow(_), _) => IntErrorKind::PosOverflow,
            _ => IntErrorKind::InvalidDigit,
        }
    }
}
