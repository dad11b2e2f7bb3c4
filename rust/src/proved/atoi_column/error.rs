/* Made by .ci/translate from crates/atoi_column/src/error.rt. Do not edit. */ //! Why a field of a column has no value.
// ghost use Rattle.std.specs.Prelude.{◌≡◌, ◌+◌, ◌-◌, ◌^◌, ◌≤◌, ◌↔◌, IsTrue, IsAscii, min, take};
// ghost use Rattle.atoi_column.specs.ErrorText.{flaw_text};
// ghost use Rattle.atoi_column.specs.Items.{flaw_of};

use crate::proved::atoi_column::text::{MOST_BYTES, put_bytes, put_decimal, put_field};
use crate::proved::atoi_core::clones_are_the_same;
use crate::proved::atoi_simd::AtoiSimdError;
use core::error::Error;
use core::fmt;
use core::str::from_utf8;

/// Why a field of a column has no value. `index` counts the fields from 0, and `place` is an offset
/// in the slice that the column was made from.
///
/// ```
/// use torkettle::AtoiSimdError;
/// use torkettle::column::{Column, ColumnError};
///
/// let error = Column::<u8>::new(b"80,443", b',').find_map(Result::err).unwrap();
/// let cause = AtoiSimdError::Overflow(b"443");
/// assert_eq!(error, ColumnError::Field { index: 1, place: 3, cause });
/// assert_eq!(error.to_string(), "field 1 at byte 3 is out of range");
/// ```
///
/// See the [guide](crate::guide#read-columns-and-lines).
#[derive(Debug, Clone, Copy, PartialEq, Eq)]
pub enum ColumnError<'a> {
    /// No number of the type can be read at the start of the field.
    Field {
        /// How many fields precede it.
        index: usize,
        /// The offset of the field's first byte.
        place: usize,
        /// What `parse_prefix` returned for the input from that byte on. A slice in it extends to
        /// the end of the input.
        cause: AtoiSimdError<'a>,
    },
    /// A byte that is not the separator follows the number.
    Trailing {
        /// How many fields precede it.
        index: usize,
        /// The offset of that byte.
        place: usize,
    },
}

impl ColumnError<'_> {
    // ghost use Rattle.atoi_column.specs.Items.{index_of, place_of};

    /// Returns the index of the field, from 0.
    ///
    /// ```
    /// use torkettle::column::Column;
    ///
    /// let error = Column::<u8>::new(b"1,2x", b',').find_map(Result::err).unwrap();
    /// assert_eq!(error.index(), 1);
    /// ```
    ///
    /// **Proved:** the result is the index [in the error](crate::specification#columns).
    #[inline]
    pub fn index(&self) -> usize
        // ensures { result ≡ index_of (flaw_of self.now) }
    {
        match self {
            ColumnError::Field { index, .. } | ColumnError::Trailing { index, .. } => *index,
        }
    }

    /// Returns the number of the field, from 1. If the fields are lines, this is the line number.
    ///
    /// **Proved:** it is one more than the index [as specified](crate::specification#columns).
    ///
    /// ```
    /// use torkettle::column::Column;
    ///
    /// let error = Column::<u8>::new(b"80\n44x", b'\n').find_map(Result::err).unwrap();
    /// assert_eq!(error.line(), 2);
    /// ```
    #[inline]
    pub fn line(&self) -> usize
        // ensures { result ≡ min (index_of (flaw_of self.now) + 1) (2 ^ 64 - 1) }
    {
        self.index().saturating_add(1)
    }

    /// Returns the offset of the field's first byte if no number can be read there, and otherwise the
    /// offset of the byte after the number.
    ///
    /// ```
    /// use torkettle::column::Column;
    ///
    /// let place = |text| Column::<u8>::new(text, b',').find_map(Result::err).unwrap().place();
    /// assert_eq!(place(b"1,x2"), 2);
    /// assert_eq!(place(b"1,2x"), 3);
    /// ```
    ///
    /// **Proved:** the result is the offset [in the error](crate::specification#columns).
    #[inline]
    pub fn place(&self) -> usize
        // ensures { result ≡ place_of (flaw_of self.now) }
    {
        match self {
            ColumnError::Field { place, .. } | ColumnError::Trailing { place, .. } => *place,
        }
    }

    /// Returns what `==` returns.
    #[doc(hidden)]
    #[inline] pub fn is_same_as(&self, other: &ColumnError<'_>) -> bool
        // ensures { IsTrue result ↔ (flaw_of self.now ≡ flaw_of other.now) }
    {
        self == other
    }

    // Writes the message to the start of `out`, and returns its length.
    #[inline] fn put_message(&self, out: &mut [u8; MOST_BYTES]) -> usize
        // ensures text { take result out.new ≡ flaw_text (flaw_of self.now) }
        // ensures fits { result ≤ MOST_BYTES }
        // ensures ascii { IsAscii (flaw_text (flaw_of self.now)) }
    {
        match *self {
            ColumnError::Field {
                index,
                place,
                cause,
            } => put_field(index, place, cause, out),
            ColumnError::Trailing { index, place } => {
                let end = put_bytes(b"field ", out, 0);
                let end = put_decimal(index as u128, out, end);
                let end = put_bytes(b" has an unexpected byte at byte ", out, end);
                put_decimal(place as u128, out, end)
            }
        }
    }
}

#[inline] fn clones() {
    clones_are_the_same::<ColumnError<'_>>();
}

// The width, fill and alignment of the caller's format are ignored.
impl fmt::Display for ColumnError<'_> {
    // ghost use Rattle.std.specs.Prelude.{Some};

    // ghost output = { λ error. Some (flaw_text (flaw_of error)) };

    // ghost styled_output = { λ error _. Some (flaw_text (flaw_of error)) };

    #[inline] fn fmt(&self, f: &mut fmt::Formatter<'_>) -> fmt::Result {
        let mut out = [0; MOST_BYTES];
        let length = self.put_message(&mut out);
        f.write_str(from_utf8(&out[..length]).unwrap())
    }
}

impl Error for ColumnError<'_> {}
