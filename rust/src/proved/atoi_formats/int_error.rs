/* Made by .ci/translate from crates/atoi_formats/src/int_error.rt. Do not edit. */ //! Why a text is no number, without a reference to the text.
// ghost use Rattle.std.specs.Prelude.{◌≡◌};
// ghost use Rattle.atoi_formats.specs.Ascii.{kind_of_fault};

use crate::proved::atoi_core::{clones_are_the_same, decimal};
use core::error::Error;
use core::fmt;
use core::num::IntErrorKind;
use core::str::from_utf8;

/// Why [`from_ascii`](crate::from_ascii) or [`from_ascii_prefix`](crate::from_ascii_prefix) failed. The
/// error does not borrow from the text, so `?` can return it from a function that owns the text.
///
/// ```
/// use torkettle::from_ascii;
///
/// let message = |text| from_ascii::<u8>(text).unwrap_err().to_string();
/// assert_eq!(message(b"x1"), "no digit at byte 0");
/// assert_eq!(message(b"+12x"), "unexpected byte at byte 3");
/// assert_eq!(message(b"256"), "number out of range");
/// ```
///
/// See the [guide](crate::guide#errors).
#[derive(Debug, Clone, Copy, PartialEq, Eq)]
pub struct IntError {
    pub(crate) fault: Fault,
    pub(crate) offset: usize,
}

#[derive(Debug, Clone, Copy, PartialEq, Eq)]
pub(crate) enum Fault {
    // The text ends where a digit must be. For a prefix, more input may bring it.
    Empty,
    // Another byte is where a digit must be, or a whole text is only a sign.
    NoDigit,
    // Another byte follows the digits.
    UnexpectedByte,
    TooLarge,
    TooSmall,
}

impl IntError {
    /// Returns the kind of the error. For `from_ascii`, the error that `str::parse` returns for the same text
    /// has the same kind.
    ///
    /// ```
    /// use std::num::IntErrorKind;
    /// use torkettle::from_ascii;
    ///
    /// let kind = |text| from_ascii::<i8>(text).unwrap_err().kind();
    /// assert_eq!(kind(b""), IntErrorKind::Empty);
    /// assert_eq!(kind(b"-"), IntErrorKind::InvalidDigit);
    /// assert_eq!(kind(b"128x"), IntErrorKind::PosOverflow);
    /// assert_eq!(kind(b"-129"), IntErrorKind::NegOverflow);
    /// ```
    ///
    /// **Proved:** the kind is [as specified](crate::specification#numbers-and-errors-asciiantt-in-atoi_formats).
    #[inline]
    pub fn kind(&self) -> IntErrorKind
        // ensures { result ≡ kind_of_fault self.now.fault }
    {
        match self.fault {
            Fault::Empty => IntErrorKind::Empty,
            Fault::NoDigit | Fault::UnexpectedByte => IntErrorKind::InvalidDigit,
            Fault::TooLarge => IntErrorKind::PosOverflow,
            Fault::TooSmall => IntErrorKind::NegOverflow,
        }
    }

    /// Returns the offset in the text of the first byte that is neither the sign nor a digit, which may be
    /// the text's end. If the number is out of range, returns the offset at which it begins, which is 0.
    ///
    /// ```
    /// use torkettle::from_ascii;
    ///
    /// let offset = |text| from_ascii::<i8>(text).unwrap_err().offset();
    /// assert_eq!(offset(b"-12x"), 3);
    /// assert_eq!(offset(b"-x"), 1);
    /// assert_eq!(offset(b"-129"), 0);
    /// ```
    ///
    /// **Proved:** the offset is [as specified](crate::specification#numbers-and-errors-asciiantt-in-atoi_formats).
    #[inline]
    pub fn offset(&self) -> usize
        // ensures { result ≡ self.now.offset }
    {
        self.offset
    }
}

#[inline] fn clones() {
    clones_are_the_same::<IntError>();
}

// The width, fill and alignment of the caller's format are ignored.
impl fmt::Display for IntError {
    // ghost use Rattle.std.specs.Prelude.{Some};
    // ghost use Rattle.atoi_formats.specs.Ascii.{int_error_text};

    // ghost output = { λ error. Some (int_error_text error) };

    // ghost styled_output = { λ error _. Some (int_error_text error) };

    #[inline] fn fmt(&self, f: &mut fmt::Formatter<'_>) -> fmt::Result {
        let what = match self.fault {
            Fault::Empty | Fault::NoDigit => "no digit at byte ",
            Fault::UnexpectedByte => "unexpected byte at byte ",
            Fault::TooLarge | Fault::TooSmall => return f.write_str("number out of range"),
        };
        f.write_str(what)?;
        // Not by `write!`, whose contract covers only the options of `{}`.
        let mut digits = [0; 39];
        let length = decimal(self.offset as u128, &mut digits);
        f.write_str(from_utf8(&digits[..length]).unwrap())
    }
}

impl Error for IntError {}
