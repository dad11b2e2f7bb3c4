/* Made by .ci/translate from crates/atoi_column/src/guesses.rt. Do not edit. */ //! Numbers of which it is guessed how many digits they have.
// ghost use Rattle.std.specs.Prelude.{◌≡◌, ℕ, ◌+◌, ◌*◌, ◌^◌, ◌<◌, ◌≤◌, ◌∷◌, [], true, Some, if◌then◌else◌, List, length, take, drop, get_or, IfSome};
// ghost use Rattle.atoi_core.specs.IntType.{bound_of};
// ghost use Rattle.atoi_core.specs.Sign.{minus_sign, with_sign};
// ghost use Rattle.atoi_core.specs.Text.{TextWrites};
// ghost use Rattle.atoi_core.specs.Words.{word_of};
// ghost use Rattle.atoi_column.specs.FirstField.{after_field};

use crate::proved::atoi_column::words::{number_before, number_of_width};
use crate::proved::atoi_simd::{Parse, parse};

/// What is guessed of the next fields. Others are read, too.
#[derive(Clone, Copy)]
pub(crate) struct Guess {
    /// How many digits each has, or 0 if they differ.
    pub width: usize,
    /// Whether a carriage return follows each.
    pub has_return: bool,
    /// Whether most have one digit.
    pub mostly_one_digit: bool,
    /// Whether some have a minus.
    pub have_minus: bool,
}

/// What is guessed of the first field.
pub(crate) const NO_GUESS: Guess = Guess {
    width: 0,
    has_return: false,
    mostly_one_digit: true,
    have_minus: false,
};

/// Guesses that the fields of `rest` look like those before, which have these numbers and `used` bytes.
/// If a field has less than 2¾ bytes on average, most have one digit.
#[inline(never)]
pub(crate) fn guess_after<T: Parse>(
    numbers: &[T],
    used: usize,
    rest: &[u8],
    is_lines: bool,
) -> Guess {
    let count = numbers.len().max(1);
    let minuses = numbers.iter().filter(|number| number.parts().0).count();
    let digits_and_ends = used.saturating_sub(minuses);
    let each = digits_and_ends / count;
    let at = sign_len::<T>(rest).saturating_add(each.saturating_sub(2));
    let has_return = is_lines && matches!(rest.split_at_checked(at), Some((_, [b'\r', ..])));
    let width = match digits_and_ends % count {
        0 => each.saturating_sub(1 + usize::from(has_return)),
        _ => 0,
    };
    Guess {
        width,
        has_return,
        mostly_one_digit: used / 11 < count / 4,
        have_minus: minuses > count / 8,
    }
}

/// Whether a word has room for the digits and what ends the field.
#[inline(always)]
pub(crate) fn fits_word(guess: Guess) -> bool
    // ensures { result ≡ true → guess.width + (if guess.has_return then 2 else 1) ≤ 8 }
{
    guess.width < 8 - usize::from(guess.has_return)
}

/// Returns the word of the bytes that end a field, and how many they are.
#[inline(always)]
pub(crate) fn end_of(separator: u8, is_lines: bool, has_return: bool) -> (u64, usize)
    // ensures some { 0 < result.1 }
    // ensures few { result.1 ≤ (if has_return then 2 else 1) }
    // ensures fits { result.0 < 2 ^ (result.1 * 8) }
    // ensures ends { (bytes : List ℕ) → ((i : ℕ) → get_or bytes i 0 < 256) → result.1 ≤ length bytes
    //     → word_of (take result.1 bytes) ≡ result.0
    //     → after_field is_lines separator bytes ≡ Some (drop result.1 bytes) }
{
    if has_return && is_lines && separator != b'\r' {
        (256 * u64::from(separator) + u64::from(b'\r'), 2)
    } else {
        (u64::from(separator), 1)
    }
}

/// `number_of_digits`, if the first `end_len` bytes of `end_word` follow the number.
#[inline(always)]
pub(crate) fn number_with_end<T: Parse>(
    rest: &[u8],
    width: usize,
    end_word: u64,
    end_len: usize,
) -> Option<(T, usize)>
    // requires few { width + end_len ≤ 8 }
    // requires fits { end_word < 2 ^ (end_len * 8) }
    // ensures within { IfSome result (λ found. found.1 + end_len ≤ length rest.now) }
    // ensures written { IfSome result (λ found. TextWrites T.int_type true (take found.1 rest.now)
    //     (T.number found.0)) }
    // ensures ends { IfSome result (λ found. word_of (take end_len (drop found.1 rest.now)) ≡ end_word) }
{
    if width == 0 || rest.len() <= 8 {
        return None;
    }
    let sign = sign_len::<T>(rest);
    let value = signed::<T>(
        sign == 1,
        number_before(&rest[sign..], width, end_word, end_len)?,
    )?;
    Some((value, sign + width))
}

/// Returns the number that `rest` begins with, and its length, if it has `width` digits, perhaps after a
/// minus.
#[inline(always)]
pub(crate) fn number_of_digits<T: Parse>(rest: &[u8], width: usize) -> Option<(T, usize)>
    // ensures within { IfSome result (λ found. found.1 ≤ length rest.now) }
    // ensures written { IfSome result (λ found. TextWrites T.int_type true (take found.1 rest.now)
    //     (T.number found.0)) }
{
    if width == 0 || width > 16 {
        return number_of_any_width::<T>(rest, width);
    }
    if rest.len() <= width.max(8) {
        return None;
    }
    let sign = sign_len::<T>(rest);
    let value = signed::<T>(sign == 1, number_of_width(&rest[sign..], width)?)?;
    Some((value, sign + width))
}

// Returns the value of this sign and magnitude, if it fits the type.
#[inline(always)]
fn signed<T: Parse>(minus: bool, magnitude: u64) -> Option<T>
    // requires { minus ≡ true → T.SIGNED ≡ true }
    // ensures fits { IfSome result (λ value. magnitude ≤ bound_of T.int_type minus) }
    // ensures number { IfSome result (λ value. T.number value ≡ with_sign minus magnitude) }
{
    // A type that has all numbers of 64 bits needs no test.
    if T::GREATEST < u128::from(u64::MAX) && magnitude > T::GREATEST as u64 + u64::from(minus) {
        return None;
    }
    Some(T::from_parts(minus, u128::from(magnitude)))
}

// `number_of_digits` for any width.
#[inline] fn number_of_any_width<T: Parse>(rest: &[u8], width: usize) -> Option<(T, usize)>
    // ensures within { IfSome result (λ found. found.1 ≤ length rest.now) }
    // ensures written { IfSome result (λ found. TextWrites T.int_type true (take found.1 rest.now)
    //     (T.number found.0)) }
{
    let (text, _) = rest.split_at_checked(width.saturating_add(sign_len::<T>(rest)))?;
    Some((parse::<T, false, false>(text).ok()?, text.len()))
}

// Returns how many bytes of a minus a field begins with.
#[inline(always)]
pub(crate) fn sign_len<T: Parse>(rest: &[u8]) -> usize
    // ensures few { result ≤ 1 }
    // ensures minus { 0 < result → (T.SIGNED ≡ true) × (take 1 rest.now ≡ minus_sign ∷ []) }
{
    match rest {
        [b'-', ..] if T::SIGNED => 1,
        _ => 0,
    }
}
