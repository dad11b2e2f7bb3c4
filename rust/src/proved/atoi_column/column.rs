/* Made by .ci/translate from crates/atoi_column/src/column.rt. Do not edit. */ //! An iterator over the numbers of a byte slice, each field read by one `parse_prefix`.
// ghost use Rattle.std.specs.Prelude.{◌≡◌, ◌<◌, ◌≤◌, true, Some, length, min, All, IfSome, IfErr};
// ghost use Rattle.std.specs.Iterator.{UpTo, item_count};
// ghost use Rattle.std.specs.Iterator.SizeHint.{IsWithinCount};
// ghost use Rattle.atoi_column.specs.Fields.{is_separator};
// ghost use Rattle.atoi_column.specs.Items.{GivesFirstItem, column_in, column_items, index_of, items_of, place_of};

use crate::proved::atoi_column::error::ColumnError;
use crate::proved::atoi_column::laws::{fields_are_prefixes, results_tell_fields};
use crate::proved::atoi_simd::{Parse, parse_prefix};
use core::iter::FusedIterator;
use core::marker::{ PhantomData};

/// Returns whether `byte` may separate fields: any byte except a digit, `+` or `-`.
///
/// ```
/// use torkettle::column::is_separator;
///
/// assert!(is_separator(b','));
/// assert!(!is_separator(b'-'));
/// ```
///
/// See the [guide](crate::guide#read-columns-and-lines).
///
/// **Proved:** the result is `true` for [exactly these bytes](crate::specification#columns).
#[inline]
pub fn is_separator(byte: u8) -> bool
    // ensures { result ≡ is_separator byte }
{
    !matches!(byte, b'0'..=b'9' | b'+' | b'-')
}

/// The numbers of a byte slice, with a separator between them, up to the first field that
/// `parse::<T, true, true>` refuses. Its [error](ColumnError) is the last item.
///
/// ```
/// use torkettle::column::{Column, ColumnError};
///
/// let mut column = Column::<u16>::new(b"80,44x,8080", b',');
/// assert_eq!(column.next(), Some(Ok(80)));
/// assert_eq!(column.next(), Some(Err(ColumnError::Trailing { index: 1, place: 5 })));
/// assert_eq!(column.next(), None);
/// ```
///
/// See the [guide](crate::guide#read-columns-and-lines).
#[derive(Clone)]
pub struct Column<'a, T: Parse> {
    rest: &'a [u8],
    // Set after the last field, and after an error.
    has_ended: bool,
    separator: u8,
    // The index of the first field of `rest`, and the offset of its first byte in the input.
    index: usize,
    place: usize,
    values: PhantomData<T>,
}

// impl<'a, T: Parse> Model for Column<'a, T> {
//     ghost use Rattle.std.specs.Prelude.{[], if◌then◌else◌};
//     ghost use Rattle.atoi_column.specs.Items.{ColumnLeft};

//     ghost Value = { ColumnLeft };

//     ghost use Rattle.atoi_column.specs.Position.{IsPosition};

//     ghost view = { λ column. record {
//       separator = column.separator;
//       index = column.index;
//       place = column.place;
//       rest = if column.has_ended then [] else column.rest.now;
//     } };

//     ghost invariant = { λ column. IsPosition column.separator column.index column.place
//         column.rest.now };
// }

impl<'a, T: Parse> Column<'a, T> {
    /// Makes a column of the fields of `input`. One more separator may follow the last field. Between
    /// two separators in a row, there is an empty field, which is refused.
    ///
    /// ```
    /// use torkettle::column::{Column, ColumnError};
    ///
    /// let total: Result<u16, ColumnError> = Column::<u16>::new(b"80,443,+07,", b',').sum();
    /// assert_eq!(total, Ok(530));
    /// ```
    ///
    /// **Proved:** the items are [the specified ones](crate::specification#columns), and at most as many
    /// as `input` has bytes.
    ///
    /// # Panics
    ///
    /// In Rust, if `separator` is a digit, `+` or `-`.
    #[inline]
    pub fn new(input: &'a [u8], separator: u8) -> Column<'a, T>
        // requires { is_separator separator ≡ true }
        // ensures left { result ≡ column_in separator input.now }
        // ensures items { column_items T.int_type result ≡ items_of T.int_type separator input.now }
        // ensures fits { length (column_items T.int_type result) ≤ length input.now }
        // ensures places { All (λ item. IfErr item (λ flaw. (place_of flaw < length input.now)
        //     × (index_of flaw < length input.now))) (column_items T.int_type result) }
    {assert!(crate::column::is_separator(separator), "a sign or a digit separates fields");
        fields_are_prefixes::<T>();
        Column {
            rest: input,
            has_ended: false,
            separator,
            index: 0,
            place: 0,
            values: PhantomData,
        }
    }
}

impl<'a, T: Parse> Iterator for Column<'a, T> {
    type Item = Result<T, ColumnError<'a>>;

    // ghost next_gives = { GivesFirstItem T.int_type T.number };

    // ghost remaining = { item_count (column_items T.int_type) };

    #[inline(always)]
    fn next(&mut self) -> Option<Result<T, ColumnError<'a>>> {
        results_tell_fields::<T>();
        let (rest, index, place) = (self.rest, self.index, self.place);
        if self.has_ended || rest.is_empty() {
            return None;
        }
        // No item follows unless a separator is found.
        self.has_ended = true;
        let (value, count) = match parse_prefix::<T, true, true>(rest) {
            Ok(found) => found,
            Err(cause) => return Some(Err(ColumnError::Field {
                index,
                place,
                cause,
            })),
        };
        match rest[count..].split_first() {
            None => Some(Ok(value)),
            Some((byte, following)) if *byte == self.separator => {
                self.has_ended = false;
                self.rest = following;
                self.index = index + 1;
                self.place = place + count + 1;
                Some(Ok(value))
            }
            Some(_) => Some(Err(ColumnError::Trailing {
                index,
                place: place + count,
            })),
        }
    }

    // A field has at least one byte, or a separator after it.
    #[inline]
    fn size_hint(&self) -> (usize, Option<usize>)
        // ensures lower { IsWithinCount result.0 (item_count (column_items T.int_type) self.now) }
        // ensures upper { IfSome result.1 (UpTo (item_count (column_items T.int_type) self.now)) }
        // ensures exact { result ≡ (min (length self.now.rest) 1, Some (length self.now.rest)) }
    {
        let left = if self.has_ended { 0 } else { self.rest.len() };
        (left.min(1), Some(left))
    }
}

impl<'a, T: Parse> FusedIterator for Column<'a, T> {}
