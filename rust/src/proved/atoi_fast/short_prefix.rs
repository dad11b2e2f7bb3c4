/* Made by .ci/translate from crates/atoi_fast/src/short_prefix.rt. Do not edit. */ //! Prefixes of few digits: their sign is read together with the digits, from one word.
// ghost use Rattle.std.specs.Prelude.{◌≡◌, ◌+◌, ◌%◌, ◌<◌, ◌≤◌, IfSome, List, ℕ, length, take, drop, true};
// ghost use Rattle.std.specs.Int.Bits.{bit_and};
// ghost use Rattle.atoi_core.specs.Digit.{decimal_table};
// ghost use Rattle.atoi_core.specs.Run.{run_len, value};
// ghost use Rattle.atoi_core.specs.Words.{low_bytes, low_value, word_of};
// ghost use Rattle.atoi_fast.specs.Short.{BeginsWithNumber, HasMinus, zero_for_minus};

use crate::proved::atoi_fast::digits::{ZEROS, four_by_product, leading_digits, sum_of, value_by_product};
use crate::proved::atoi_fast::in_range::{MOST_IN_THREE_WORDS, MOST_IN_TWO_WORDS, MOST_IN_WORD, number_in_range};
use crate::proved::atoi_fast::loads::{load_from, load_full};
use crate::proved::atoi_core::powers::power_of_ten;
use crate::proved::atoi_core::{Number, Steps};

/// Returns the number at the start of `s` and its length, if that is below 8, or for signed types below 16.
/// For `i64`, also a number of up to 19 digits. Others may be `None`, too.
#[inline(always)]
pub(crate) fn short_prefix<T: Number>(s: &[u8], steps: &mut Steps) -> Option<(T, usize)>
    // requires { 16 ≤ length s.now }
    // ensures answer { IfSome result (λ found. BeginsWithNumber T.int_type s.now (T.number found.0) found.1) }
    // ensures short { IfSome result (λ found. found.1 ≤ 20) }
    // ensures one_step { steps.new ≡ steps.old + 1 }
{
    steps.tick();
    if T::SIGNED {
        prefix_of_words(s)
    } else {
        unsigned_prefix(s)
    }
}

/// `unsigned_prefix`, which counts its load.
#[inline(always)]
pub(crate) fn loaded_prefix<T: Number>(s: &[u8], steps: &mut Steps) -> Option<(T, usize)>
    // requires { 16 ≤ length s.now }
    // ensures answer { IfSome result (λ found. BeginsWithNumber T.int_type s.now (T.number found.0) found.1) }
    // ensures short { IfSome result (λ found. found.1 ≤ 20) }
    // ensures one_step { steps.new ≡ steps.old + 1 }
{
    steps.tick();
    unsigned_prefix(s)
}

/// Like `short_prefix` for a signed type. `u64` has up to 19 digits, too.
#[inline(always)]
pub(crate) fn prefix_of_words<T: Number>(s: &[u8]) -> Option<(T, usize)>
    // requires { 16 ≤ length s.now }
    // ensures answer { IfSome result (λ found. BeginsWithNumber T.int_type s.now (T.number found.0) found.1) }
    // ensures short { IfSome result (λ found. found.1 ≤ 20) }
{
    let word = load_full(s);
    // A `-` borrows from the next byte, so that a `0` there looks like no digit.
    let above = word.wrapping_add(0x4646_4646_4646_4646);
    let below = word.wrapping_sub(ZEROS);
    let marks = (above | below) & 0x8080_8080_8080_8000;
    if marks & 0x8000 != 0 {
        // The next load waits for nothing.
        let digit = lowest_byte(below);
        if digit > 9 {
            return None;
        }
        return Some((T::from_parts(false, u128::from(digit)), 1));
    }
    let minus = T::SIGNED & (lowest_byte(word) == b'-');
    // The digit of a `-` is 0, and takes the borrow back.
    let digits = below.wrapping_add(3 * u64::from(minus));
    if lowest_byte(digits) > 9 {
        return None;
    }
    if marks == 0 {
        // With `return` of the call, clang 19 returns all lengths in memory.
        let found = prefix_of_two_words(minus, sum_of(digits), s)?;
        return Some(found);
    }
    let len = marks.trailing_zeros() / 8;
    let number = number_in_range::<T, T>(MOST_IN_WORD, minus, value_by_product(digits, len))?;
    Some((number, len as usize))
}

/// `prefix_of_words` for the header of C, without numbers of one digit. Long ones take a call.
#[inline(always)]
pub(crate) fn prefix_by_calls<T: Number, W: Number>(s: &[u8]) -> Option<(W, usize)>
    // requires enough { 16 ≤ length s.now }
    // requires word { W.BITS ≡ 64 }
    // requires sign { W.SIGNED ≡ T.SIGNED }
    // ensures { IfSome result (λ found. BeginsWithNumber T.int_type s.now (W.number found.0) found.1) }
{
    let word = load_full(s);
    let lowered = word.wrapping_sub(ZEROS);
    let marks = (word.wrapping_add(0x4646_4646_4646_4646) | lowered) & 0x8080_8080_8080_8000;
    if marks & 0x8000 != 0 {
        return None;
    }
    let minus = W::SIGNED & (lowest_byte(word) == b'-');
    let digits = lowered.wrapping_add(3 * u64::from(minus));
    if lowest_byte(digits) > 9 {
        return None;
    }
    if marks == 0 {
        let (number, len) = long_by_digits::<W>(minus, digits, s);
        return if len == 0 {
            None
        } else {
            narrowed::<T, W>(number, len)
        };
    }
    let len = marks.trailing_zeros() / 8;
    let number = number_in_range::<T, W>(MOST_IN_WORD, minus, value_by_product(digits, len))?;
    Some((number, len as usize))
}

#[inline] fn lowest_byte(word: u64) -> u8
    // ensures { result ≡ word % 256 }
{
    (word & 0xFF) as u8
}

#[inline(always)]
fn long_by_digits<T: Number>(minus: bool, digits: u64, s: &[u8]) -> (T, usize)
    // requires enough { 16 ≤ length s.now }
    // requires minus { minus ≡ true → HasMinus T.SIGNED s.now }
    // requires full { 8 ≤ run_len decimal_table (zero_for_minus minus s.now) }
    // requires halves { bit_and digits 0x0F0F_0F0F_0F0F_0F0F ≡ digits }
    // requires high { low_value (low_bytes 8 digits) ≡ value decimal_table (take 8 (zero_for_minus minus s.now)) }
    // ensures { 0 < result.1 → BeginsWithNumber T.int_type s.now (T.number result.0) result.1 }
{
    if T::SIGNED {
        long_signed_prefix(minus, digits, s)
    } else {
        long_prefix(minus, sum_of(digits), s)
    }
}

// C calls this for smaller callers.
#[inline(always)]
fn long_signed_prefix<T: Number>(minus: bool, digits: u64, s: &[u8]) -> (T, usize)
    // requires enough { 16 ≤ length s.now }
    // requires minus { minus ≡ true → HasMinus T.SIGNED s.now }
    // requires full { 8 ≤ run_len decimal_table (zero_for_minus minus s.now) }
    // requires halves { bit_and digits 0x0F0F_0F0F_0F0F_0F0F ≡ digits }
    // requires high { low_value (low_bytes 8 digits) ≡ value decimal_table (take 8 (zero_for_minus minus s.now)) }
    // ensures { 0 < result.1 → BeginsWithNumber T.int_type s.now (T.number result.0) result.1 }
{
    long_prefix(minus, sum_of(digits), s)
}

// The length is 0 for `None`.
#[inline(always)]
fn long_prefix<T: Number>(minus: bool, high: u64, s: &[u8]) -> (T, usize)
    // requires enough { 16 ≤ length s.now }
    // requires minus { minus ≡ true → HasMinus T.SIGNED s.now }
    // requires full { 8 ≤ run_len decimal_table (zero_for_minus minus s.now) }
    // requires high { high ≡ value decimal_table (take 8 (zero_for_minus minus s.now)) }
    // requires most { high ≤ 166666665 }
    // ensures { 0 < result.1 → BeginsWithNumber T.int_type s.now (T.number result.0) result.1 }
{
    match prefix_of_two_words(minus, high, s) {
        Some(found) => found,
        None => (T::from_parts(false, 0), 0),
    }
}

// The number of 8 to 15 bytes, of which the first eight spell `high`, with a zero for a minus.
#[inline(always)]
fn prefix_of_two_words<T: Number>(minus: bool, high: u64, s: &[u8]) -> Option<(T, usize)>
    // requires enough { 16 ≤ length s.now }
    // requires minus { minus ≡ true → HasMinus T.SIGNED s.now }
    // requires full { 8 ≤ run_len decimal_table (zero_for_minus minus s.now) }
    // requires high { high ≡ value decimal_table (take 8 (zero_for_minus minus s.now)) }
    // requires most { high ≤ 166666665 }
    // ensures answer { IfSome result (λ found. BeginsWithNumber T.int_type s.now (T.number found.0) found.1) }
    // ensures short { IfSome result (λ found. found.1 ≤ 20) }
{
    let next = load_full(&s[8..]);
    let more = leading_digits(next);
    if more == 8 {
        if T::BITS != 64 {
            return None;
        }
        let found = prefix_of_three_words(minus, high, next, s)?;
        return Some(found);
    }
    let low = value_by_product(next.wrapping_sub(ZEROS), more);
    let magnitude = high * power_of_ten(more) + low;
    let number = number_in_range::<T, T>(MOST_IN_TWO_WORDS, minus, magnitude)?;
    Some((number, 8 + more as usize))
}

// `prefix_of_two_words` for 16 to 20 bytes, of which the second eight are `second`.
#[inline(always)]
fn prefix_of_three_words<T: Number>(
    minus: bool,
    high: u64,
    second: u64,
    s: &[u8],
) -> Option<(T, usize)>
    // requires wide { T.BITS ≡ 64 }
    // requires minus { minus ≡ true → HasMinus T.SIGNED s.now }
    // requires enough { 16 ≤ length s.now }
    // requires full { 16 ≤ run_len decimal_table (zero_for_minus minus s.now) }
    // requires high { high ≡ value decimal_table (take 8 (zero_for_minus minus s.now)) }
    // requires most { high ≤ 166666665 }
    // requires second { second ≡ word_of (take 8 (drop 8 s.now)) }
    // ensures answer { IfSome result (λ found. BeginsWithNumber T.int_type s.now (T.number found.0) found.1) }
    // ensures short { IfSome result (λ found. found.1 ≤ 20) }
{
    let high = high * power_of_ten(8) + sum_of(second.wrapping_sub(ZEROS));
    let third = load_from(s, 16);
    let more = leading_digits(third);
    // At most 19 digits, which no limit refuses.
    if more > 3 + u32::from(minus) {
        return None;
    }
    let low = four_by_product(third.wrapping_sub(ZEROS), more);
    let magnitude = high * power_of_ten(more) + low;
    let number = number_in_range::<T, T>(MOST_IN_THREE_WORDS, minus, magnitude)?;
    Some((number, 16 + more as usize))
}

/// `prefix_by_calls` for an unsigned type, with a branch on few digits.
#[inline(always)]
pub(crate) fn prefix_by_length<T: Number, W: Number>(s: &[u8]) -> Option<(W, usize)>
    // requires enough { 16 ≤ length s.now }
    // requires word { W.BITS ≡ 64 }
    // requires sign { W.SIGNED ≡ T.SIGNED }
    // ensures { IfSome result (λ found. BeginsWithNumber T.int_type s.now (W.number found.0) found.1) }
{
    let word = load_full(s);
    let digits = word.wrapping_sub(ZEROS);
    let marks = (word.wrapping_add(0x4646_4646_4646_4646) | digits) & 0x8080_8080_8080_8080;
    if marks & 0xFF != 0 {
        return None;
    }
    let first = u64::from(lowest_byte(digits));
    if marks & 0xFFFF != 0 {
        return Some((W::from_parts(false, u128::from(first)), 1));
    }
    let two = 10 * first + u64::from(lowest_byte(digits >> 8));
    if marks & 0xFF_FFFF != 0 {
        return Some((W::from_parts(false, u128::from(two)), 2));
    }
    if marks & 0xFFFF_FFFF != 0 {
        let three = 10 * two + u64::from(lowest_byte(digits >> 16));
        let number = number_in_range::<T, W>(MOST_IN_WORD, false, three)?;
        return Some((number, 3));
    }
    if marks == 0 {
        let (number, len) = long_prefix::<W>(false, sum_of(digits), s);
        return if len == 0 {
            None
        } else {
            narrowed::<T, W>(number, len)
        };
    }
    prefix_in_word::<T, W>(word, marks.trailing_zeros() / 8, s)
}

// The same number, if `T` has it and allows its digits.
#[inline(always)]
fn narrowed<T: Number, W: Number>(number: W, len: usize) -> Option<(W, usize)>
    // requires word { W.BITS ≡ 64 }
    // requires sign { W.SIGNED ≡ T.SIGNED }
    // ensures { (s : List ℕ) → BeginsWithNumber W.int_type s (W.number number) len
    //     → IfSome result (λ found. BeginsWithNumber T.int_type s (W.number found.0) found.1) }
{
    if T::BITS < 64 {
        let (minus, magnitude) = number.parts();
        if magnitude > T::GREATEST + u128::from(minus) || len > 16 {
            return None;
        }
    }
    Some((number, len))
}

#[inline(always)]
fn unsigned_prefix<T: Number>(s: &[u8]) -> Option<(T, usize)>
    // requires { 16 ≤ length s.now }
    // ensures answer { IfSome result (λ found. BeginsWithNumber T.int_type s.now (T.number found.0) found.1) }
    // ensures short { IfSome result (λ found. found.1 ≤ 20) }
{
    let word = load_full(s);
    let len = leading_digits(word);
    if len == 0 || len == 8 {
        return None;
    }
    prefix_in_word::<T, T>(word, len, s)
}

#[inline(always)]
fn prefix_in_word<T: Number, W: Number>(word: u64, len: u32, s: &[u8]) -> Option<(W, usize)>
    // requires enough { 16 ≤ length s.now }
    // requires sign { W.SIGNED ≡ T.SIGNED }
    // requires word { word ≡ word_of (take 8 s.now) }
    // requires some { 1 ≤ len }
    // requires few { len < 8 }
    // requires len { len ≡ run_len decimal_table (low_bytes 8 word) }
    // ensures answer { IfSome result (λ found. BeginsWithNumber T.int_type s.now (W.number found.0) found.1) }
    // ensures short { IfSome result (λ found. found.1 ≤ 20) }
{
    let magnitude = value_by_product(word.wrapping_sub(ZEROS), len);
    let number = number_in_range::<T, W>(MOST_IN_WORD, false, magnitude)?;
    Some((number, len as usize))
}
