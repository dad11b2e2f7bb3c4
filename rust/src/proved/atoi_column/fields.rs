/* Made by .ci/translate from crates/atoi_column/src/fields.rt. Do not edit. */ //! An iterator over the fields of a byte slice, which goes on after an error.
// ghost use Rattle.std.specs.Prelude.{◌≡◌, ◌+◌, ◌^◌, ◌<◌, ◌≤◌, ◌==◌, ◌∷◌, ◌++◌, ℕ, ℤ, true, false, None, Some, Ok, length, min, take, drop, map, All, IsFalse, IfSome, IfNone, IfOk, IfErr};
// ghost use Rattle.std.specs.Iterator.{UpTo, item_count};
// ghost use Rattle.std.specs.Iterator.SizeHint.{IsWithinCount};
// ghost use Rattle.std.specs.Option.{option_map};
// ghost use Rattle.std.specs.List.{position_or_len, after_first};
// ghost use Rattle.atoi_core.specs.Answer.{parse_answer, parse_prefix_answer, typed_prefix_answer};
// ghost use Rattle.atoi_core.specs.Text.{PrefixWrites, TextWrites};
// ghost use Rattle.atoi_column.specs.Fields.{is_separator};
// ghost use Rattle.atoi_column.specs.FieldItems.{cut_of, field_item, field_item_of, fields_in, lines_in, field_items, field_items_left, after_first_field, line_items, GivesFirstField};
// ghost use Rattle.atoi_column.specs.FirstField.{after_field, first_text, IsAcceptedField, IsOneDigitField};

mod read;

use crate::proved::atoi_column::field_error::FieldError;
use crate::proved::atoi_column::guesses::{Guess, NO_GUESS};
use crate::proved::atoi_column::laws::fields_are_prefixes;
use crate::proved::atoi_core::laws::{accepted_texts, prefix_begins, prefix_is_whole};
use crate::proved::atoi_simd::{AtoiSimdError, Parse, parse, parse_prefix, parse_prefix_pos};
use core::iter::FusedIterator;
use core::marker::{ PhantomData};

/// The numbers of a byte slice, with a separator between them. The item of a field that
/// `parse::<T, true, true>` refuses is an [error](FieldError), and the next field follows.
///
/// ```
/// use torkettle::column::Fields;
///
/// let mut fields = Fields::<u8>::new(b"1,x,3", b',');
/// assert_eq!(fields.next(), Some(Ok(1)));
/// assert_eq!(fields.next().unwrap().unwrap_err().text, b"x");
/// assert_eq!(fields.next(), Some(Ok(3)));
/// assert_eq!(fields.next(), None);
/// ```
///
/// See the [guide](crate::guide#read-columns-and-lines).
#[derive(Clone)]
pub struct Fields<'a, T: Parse> {
    rest: &'a [u8],
    separator: u8,
    // A carriage return before the separator is no part of the field.
    is_lines: bool,
    // The index of the first field of `rest`, and the length of the whole input.
    index: usize,
    end: usize,
    values: PhantomData<T>,
}

// impl<'a, T: Parse> Model for Fields<'a, T> {
//     ghost use Rattle.std.specs.Prelude.{◌-◌, length};
//     ghost use Rattle.atoi_column.specs.FieldItems.{FieldsLeft};

//     ghost Value = { FieldsLeft };

//     ghost use Rattle.atoi_column.specs.Position.{IsBeforeEnd};

//     ghost view = { λ fields. record {
//       is_lines = fields.is_lines;
//       separator = fields.separator;
//       index = fields.index;
//       place = fields.end - length fields.rest.now;
//       rest = fields.rest.now;
//     } };

//     ghost invariant = { λ fields. IsBeforeEnd fields.separator fields.index fields.end
//         fields.rest.now };
// }

impl<'a, T: Parse> Fields<'a, T> {
    /// The fields of `input`, with a separator between them. One more may follow the last field.
    ///
    /// ```
    /// use torkettle::column::Fields;
    ///
    /// let numbers: Vec<u8> = Fields::new(b"1;x;+03;", b';').flatten().collect();
    /// assert_eq!(numbers, [1, 3]);
    /// ```
    ///
    /// **Proved:** the items are [the specified ones](crate::specification#columns), and at most as many
    /// as `input` has bytes.
    ///
    /// # Panics
    ///
    /// In Rust, if `separator` is a digit, `+` or `-`.
    #[inline]
    pub fn new(input: &'a [u8], separator: u8) -> Fields<'a, T>
        // requires { is_separator separator ≡ true }
        // ensures left { result ≡ fields_in separator input.now }
        // ensures items { field_items_left T.int_type result ≡ field_items T.int_type separator input.now }
        // ensures fits { length (field_items_left T.int_type result) ≤ length input.now }
        // ensures places { All (λ item. IfErr item (λ bad. (bad.place < length input.now)
        //     × (bad.index < length input.now))) (field_items_left T.int_type result) }
    {assert!(crate::column::is_separator(separator), "a sign or a digit separates fields");
        Fields {
            rest: input,
            separator,
            is_lines: false,
            index: 0,
            end: input.len(),
            values: PhantomData,
        }
    }

    /// The lines of `input`, as `str::lines` splits them: a line ends with `\n` or `\r\n`, which are
    /// no part of it.
    ///
    /// ```
    /// use torkettle::column::Fields;
    ///
    /// let lines = Fields::<u8>::lines(b"80\r\n\n443");
    /// assert_eq!(lines.map(|item| item.ok()).collect::<Vec<_>>(), [Some(80), None, None]);
    /// ```
    ///
    /// **Proved:** the items are [the specified ones](crate::specification#columns), and at most as many
    /// as `input` has bytes.
    #[inline]
    pub fn lines(input: &'a [u8]) -> Fields<'a, T>
        // ensures left { result ≡ lines_in input.now }
        // ensures items { field_items_left T.int_type result ≡ line_items T.int_type input.now }
        // ensures fits { length (field_items_left T.int_type result) ≤ length input.now }
        // ensures places { All (λ item. IfErr item (λ bad. (bad.place < length input.now)
        //     × (bad.index < length input.now))) (field_items_left T.int_type result) }
    {
        Fields {
            rest: input,
            separator: b'\n',
            is_lines: true,
            index: 0,
            end: input.len(),
            values: PhantomData,
        }
    }

    /// Returns the same fields, but the first has the index `index` and begins at offset `place`: the
    /// [`position`](Fields::position) at which the last piece of a [file](crate::guide#read-files) ended.
    ///
    /// ```
    /// use torkettle::column::Fields;
    ///
    /// let mut lines = Fields::<u8>::lines(b"80\n4x").starting_at(2, 9);
    /// let error = lines.find_map(Result::err).unwrap();
    /// assert_eq!((error.index, error.place), (3, 12));
    /// ```
    ///
    /// **Proved:** no more than these positions of [the items](crate::specification#columns) changes.
    ///
    /// # Panics
    ///
    /// In Rust, if `index` or `place`, plus the number of bytes left, exceeds `usize::MAX`.
    #[inline]
    pub fn starting_at(mut self, index: usize, place: usize) -> Fields<'a, T>
        // requires { (index + length self.rest < 2 ^ 64) × (place + length self.rest < 2 ^ 64) }
        // ensures { result ≡ record self.entry { index = index; place = place } }
    {assert!(self.rest.len() <= usize::MAX - index, "the fields have too many indices"); assert!(self.rest.len() <= usize::MAX - place, "the fields end above usize::MAX");
        self.index = index;
        self.end = place + self.rest.len();
        self
    }

    /// Returns the index of the next field, and the offset at which it begins. At the end, these are
    /// the number of all fields, and the offset at which the input ends. To look for an item, call
    /// `Iterator::position` by this name (see the [guide](crate::guide#read-files)).
    ///
    /// ```
    /// use torkettle::column::Fields;
    ///
    /// let mut fields = Fields::<u8>::new(b"1,22,3", b',');
    /// assert_eq!(fields.position(), (0, 0));
    /// assert_eq!(fields.nth(1), Some(Ok(22)));
    /// assert_eq!(fields.position(), (2, 5));
    /// assert_eq!(fields.next(), Some(Ok(3)));
    /// assert_eq!(fields.position(), (3, 6));
    /// ```
    ///
    /// **Proved:** if [the next item](crate::specification#columns) is an error, it has this position.
    #[inline]
    pub fn position(&self) -> (usize, usize)
        // ensures { result ≡ (self.now.index, self.now.place) }
    {
        (self.index, self.end - self.rest.len())
    }
}

impl<'a, T: Parse> Iterator for Fields<'a, T> {
    type Item = Result<T, FieldError<'a>>;

    // ghost next_gives = { GivesFirstField T.int_type T.number };

    // ghost remaining = { item_count (field_items_left T.int_type) };

    #[inline(always)]
    fn next(&mut self) -> Option<Result<T, FieldError<'a>>> {
        let (rest, index) = (self.rest, self.index);
        if rest.is_empty() {
            return None;
        }
        self.index = index + 1;
        match accepted_field::<T>(rest, self.separator, self.is_lines, NO_GUESS) {
            Some((value, following)) => {
                self.rest = following;
                Some(Ok(value))
            }
            None => {
                let place = self.end - rest.len();
                let (item, following) = read_field(
                    rest,
                    self.separator,
                    self.is_lines,
                    index,
                    place,
                );
                self.rest = following;
                Some(item)
            }
        }
    }

    #[inline]
    fn size_hint(&self) -> (usize, Option<usize>)
        // ensures lower { IsWithinCount result.0 (item_count (field_items_left T.int_type) self.now) }
        // ensures upper { IfSome result.1 (UpTo (item_count (field_items_left T.int_type) self.now)) }
        // ensures exact { result ≡ (min (length self.now.rest) 1, Some (length self.now.rest)) }
    {
        let left = self.rest.len();
        (left.min(1), Some(left))
    }
}

impl<'a, T: Parse> FusedIterator for Fields<'a, T> {}

// Returns the value of the first field of `rest`, and what follows its separator, if the field is a
// number without a plus.
#[inline(always)]
fn accepted_field<T: Parse>(
    rest: &[u8],
    separator: u8,
    is_lines: bool,
    guess: Guess,
) -> Option<(T, &[u8])>
    // ensures some { is_separator separator ≡ true → IfSome result (λ found. IsAcceptedField T.int_type
    //     is_lines separator rest.now (T.number found.0) found.1.now) }
    // ensures none { IfNone result ((number : ℤ) (count : ℕ)
    //     → parse_prefix_answer T.int_type true false rest.now ≡ Ok (number, count)
    //     → after_field is_lines separator (drop count rest.now) ≡ None) }
{
    fields_are_prefixes::<T>();
    accepted_texts::<T>();
    prefix_begins::<T>();
    if guess.mostly_one_digit {
        if let Some((value, following)) = one_digit_field::<T>(rest, separator) {
            return Some((value, following));
        }
    }
    let (value, count) = first_number::<T>(rest, guess.have_minus).ok()?;
    let following = after_field(&rest[count..], separator, is_lines)?;
    Some((value, following))
}

// `parse_prefix` without a plus. Unless some numbers `have_minus`, a first digit says that there is no sign.
#[inline(always)]
fn first_number<T: Parse>(rest: &[u8], have_minus: bool) -> Result<(T, usize), AtoiSimdError<'_>>
    // ensures answer { typed_prefix_answer T.number result
    //     ≡ parse_prefix_answer T.int_type true false rest.now }
    // ensures within { IfOk result (λ found. found.1 ≤ length rest.now) }
    // ensures prefix { IfOk result (λ found.
    //     PrefixWrites (TextWrites T.int_type false) rest.now (T.number found.0) found.1) }
{
    match rest {
        [b'0'..=b'9', ..] if T::SIGNED && !have_minus => parse_prefix_pos::<T, true>(rest),
        _ if !T::SIGNED => parse_prefix_pos::<T, true>(rest),
        _ => parse_prefix::<T, true, false>(rest),
    }
}

// Returns the number of a first field of one byte, and what follows its separator.
#[inline(always)]
fn one_digit_field<T: Parse>(rest: &[u8], separator: u8) -> Option<(T, &[u8])>
    // ensures { is_separator separator ≡ true → IfSome result (λ found. IsOneDigitField T.int_type separator
    //     rest.now (T.number found.0) found.1.now) }
{
    fields_are_prefixes::<T>();
    accepted_texts::<T>();
    prefix_is_whole::<T>();
    match rest {
        [first, second, following @ ..] if *second == separator && first.is_ascii_digit() => {
            let value = parse::<T, true, false>(&rest[..1]).ok()?;
            Some((value, following))
        }
        _ => None,
    }
}

// Returns what follows a field that ends before `tail`, or `None` if no field does.
#[inline(always)]
fn after_field(tail: &[u8], separator: u8, is_lines: bool) -> Option<&[u8]>
    // ensures { option_map (λ following. following.now) result
    //     ≡ after_field is_lines separator tail.now }
{
    match tail {
        [] => Some(tail),
        [byte, following @ ..] if *byte == separator => Some(following),
        [b'\r', byte, following @ ..] if is_lines && *byte == separator => Some(following),
        _ => None,
    }
}

// Returns the item of the first field of `rest`, which may begin with a plus, and what follows its
// separator.
#[cold]
#[inline(never)]
fn read_field<'a, T: Parse>(
    rest: &'a [u8],
    separator: u8,
    is_lines: bool,
    index: usize,
    place: usize,
) -> (Result<T, FieldError<'a>>, &'a [u8])
    // requires separates { is_separator separator ≡ true }
    // ensures item { field_item_of T.number result.0
    //     ≡ field_item index place (first_text (cut_of is_lines) separator rest.now)
    //     (parse_answer T.int_type true true (first_text (cut_of is_lines) separator rest.now)) }
    // ensures following { result.1.now ≡ after_first (λ byte. byte == separator) rest.now }
{
    let (text, following) = first_field(rest, separator, is_lines);
    match parse::<T, true, true>(text) {
        Ok(value) => (Ok(value), following),
        Err(cause) => {
            let error = FieldError {
                index,
                place,
                text,
                cause,
            };
            (Err(error), following)
        }
    }
}

#[inline] fn first_field(rest: &[u8], separator: u8, is_lines: bool) -> (&[u8], &[u8])
    // ensures text { result.0.now ≡ first_text (cut_of is_lines) separator rest.now }
    // ensures following { result.1.now ≡ after_first (λ byte. byte == separator) rest.now }
{
    let (field, tail) = rest.split_at(field_len(rest, separator));
    match tail.split_first() {
        None => (field, tail),
        Some((_, following)) => (text_of(field, is_lines), following),
    }
}

#[inline] fn field_len(rest: &[u8], separator: u8) -> usize
    // ensures { result ≡ position_or_len (λ byte. byte == separator) rest.now }
{
    rest.iter().take_while(|byte| **byte != separator).count()
}

// Returns the text of a field that a separator ends.
#[inline] fn text_of(field: &[u8], is_lines: bool) -> &[u8]
    // ensures { result.now ≡ cut_of is_lines field.now }
{
    match field {
        [text @ .., b'\r'] if is_lines => text,
        _ => field,
    }
}
