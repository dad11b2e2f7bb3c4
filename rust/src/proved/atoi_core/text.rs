/* Made by .ci/translate from crates/atoi_core/src/text.rt. Do not edit. */ //! The text of an error, written into a slice.
// ghost use Rattle.std.specs.Prelude.{◌≡◌, ◌+◌, ◌-◌, ◌*◌, ◌/◌, ◌%◌, ◌^◌, ◌<◌, ◌≤◌, ◌++◌, true, Some, length, take, codes, decimal, IsAscii};
// ghost use Rattle.std.specs.Fmt.{digit_glyph};
// ghost use Rattle.atoi_core.specs.ErrorText.{hex_text, hex_list, input_text, invalid_text, error_text};
// ghost use Rattle.atoi_core.specs.Refusal.{refusal_of};

use crate::proved::atoi_core::error::AtoiSimdError;
use core::fmt;
use core::str::from_utf8;

impl AtoiSimdError<'_> {
    /// Writes what `Display` prints to the start of `out`, and returns its length. It shows at most
    /// 48 bytes of the slice, in hexadecimal (see the [guide](crate::guide#embedded-systems)).
    ///
    /// ```
    /// let error = torkettle::AtoiSimdError::Overflow(b"256");
    /// let mut out = [0; 400];
    /// let length = error.text(&mut out);
    /// assert_eq!(&out[..length], b"atoi_simd overflow, input: [32, 35, 36]");
    /// assert_eq!(&out[..length], error.to_string().as_bytes());
    /// ```
    ///
    /// **Proved:** the start of `out` is the message, and the result is its length (see the
    /// [specification](crate::specification#errors-refusalantt-errortextantt-errorkindsantt)).
    #[inline] pub fn text(&self, out: &mut [u8; 400]) -> usize
        // ensures text { take result out.new ≡ error_text (refusal_of self.now) }
        // ensures fits { result ≤ 332 }
        // ensures ascii { IsAscii (error_text (refusal_of self.now)) }
    {
        match *self {
            AtoiSimdError::Empty => put_bytes(b"atoi_simd string is empty", out, 0),
            AtoiSimdError::Size(length, input) => {
                let end = put_bytes(b"atoi_simd wrong size: ", out, 0);
                let end = put_decimal(length as u128, out, end);
                let end = put_bytes(b" input: ", out, end);
                put_input(input, out, end)
            }
            AtoiSimdError::Overflow(input) => {
                let end = put_bytes(b"atoi_simd overflow, input: ", out, 0);
                put_input(input, out, end)
            }
            AtoiSimdError::Invalid64(number, index, input) => {
                let end = put_invalid(number as u128, index, out);
                let end = put_bytes(b"  input: ", out, end);
                put_input(input, out, end)
            }
            AtoiSimdError::Invalid128(number, index, input) => {
                let end = put_invalid(number, index, out);
                let end = put_bytes(b" input: ", out, end);
                put_input(input, out, end)
            }
        }
    }
}

// The width, fill and alignment of the caller's format are ignored.
impl fmt::Display for AtoiSimdError<'_> {
    // ghost output = { λ error. Some (error_text (refusal_of error)) };

    // ghost styled_output = { λ error _. Some (error_text (refusal_of error)) };

    #[inline] fn fmt(&self, f: &mut fmt::Formatter<'_>) -> fmt::Result {
        let mut out = [0; 400];
        let length = self.text(&mut out);
        f.write_str(from_utf8(&out[..length]).unwrap())
    }
}

const SHOWN_BYTES: usize = 48;

// #[tactic(auto, using(std::proofs::lemmas::List::take_min))]
#[inline] fn shown_front(input: &[u8]) -> &[u8]
    // ensures front { result.now ≡ take SHOWN_BYTES input.now }
    // ensures fits { length result.now ≤ SHOWN_BYTES }
{
    &input[..SHOWN_BYTES.min(input.len())]
}

// #[tactic(auto, using(crate::proofs::lemmas::ErrorTexts::input_text_is_ascii))]
#[inline] fn put_input(input: &[u8], out: &mut [u8], at: usize) -> usize
    // requires { at + 192 ≤ length out.old }
    // ensures written { take result out.new ≡ take at out.old ++ input_text input.now }
    // ensures fits { result ≤ at + 192 }
    // ensures ascii { IsAscii (input_text input.now) }
{
    let end = put_bytes(b"[", out, at);
    let end = put_hex_list(shown_front(input), out, end);
    put_bytes(b"]", out, end)
}

#[inline] fn put_invalid(number: u128, index: usize, out: &mut [u8; 400]) -> usize
    // ensures written { take result out.new ≡ invalid_text number index }
    // ensures fits { result ≤ 132 }
    // ensures fits_of_64_bits { number < 2 ^ 64 → result ≤ 113 }
{
    let end = put_bytes(b"atoi_simd invalid at index: ", out, 0);
    let end = put_decimal(index as u128, out, end);
    let end = put_bytes(b" it must contain only digits, starting with: ", out, end);
    put_decimal(number, out, end)
}

/// Writes the decimal digits of `value`, without leading zeros, to the start of `out`. Returns how
/// many there are.
#[inline] pub fn decimal(value: u128, out: &mut [u8; 39]) -> usize
    // ensures digits { take result out.new ≡ decimal value }
    // ensures length { result ≡ length (decimal value) }
    // ensures fits { result ≤ 39 }
    // ensures ascii { IsAscii (decimal value) }
{
    put_decimal(value, out, 0)
}

// Writes `bytes` into `out` from offset `at` on. Each `put_` function returns the offset after what it
// writes.
#[inline] fn put_bytes(bytes: &[u8], out: &mut [u8], at: usize) -> usize
    // requires { at + length bytes.now ≤ length out.old }
    // ensures written { take result out.new ≡ take at out.old ++ bytes.now }
    // ensures place { result ≡ at + length bytes.now }
{
    let end = at + bytes.len();
    out[at..end].copy_from_slice(bytes);
    end
}

// #[tactic(auto, using(crate::proofs::lemmas::ErrorTexts::of_decimal))]
#[inline] fn put_decimal(value: u128, out: &mut [u8], at: usize) -> usize
    // requires { at + 39 ≤ length out.old }
    // ensures written { take result out.new ≡ take at out.old ++ decimal value }
    // ensures place { result ≡ at + length (decimal value) }
    // ensures fits { result ≤ at + 39 }
    // ensures fits_of_64_bits { value < 2 ^ 64 → result ≤ at + 20 }
    // ensures ascii { IsAscii (decimal value) }
{
    let (tens, ones) = divide_by_ten(value);
    let end = if tens == 0 {
        at
    } else {
        put_decimal(tens, out, at)
    };
    put_bytes(&[b'0' + ones], out, end)
}

// A long division in base 2^32. On most processors, a 128-bit division calls a function that a library
// without std cannot link.
#[inline] fn divide_by_ten(value: u128) -> (u128, u8)
    // ensures { result ≡ (value / 10, value % 10) }
{
    let high = (value >> 64) as u64;
    let low = (value & 0xFFFF_FFFF_FFFF_FFFF) as u64;
    let middle = ((high % 10) << 32) + (low >> 32);
    let last = ((middle % 10) << 32) + (low & 0xFFFF_FFFF);
    let below = ((middle / 10) << 32) + last / 10;
    let quotient = ((high / 10) as u128) << 64 | below as u128;
    (quotient, (last % 10) as u8)
}

// #[tactic(auto, using(crate::proofs::lemmas::ErrorTexts::of_hex))]
#[inline] fn put_hex(byte: u8, out: &mut [u8], at: usize) -> usize
    // requires { at + 2 ≤ length out.old }
    // ensures written { take result out.new ≡ take at out.old ++ hex_text byte }
    // ensures fits { result ≤ at + 2 }
{
    let last = hex_digit(byte % 16);
    if byte < 16 {
        return put_bytes(&[last], out, at);
    }
    let end = put_bytes(&[hex_digit(byte / 16)], out, at);
    put_bytes(&[last], out, end)
}

#[inline] fn hex_digit(digit: u8) -> u8
    // requires { digit < 16 }
    // ensures { result ≡ digit_glyph true digit }
{
    if digit < 10 {
        b'0' + digit
    } else {
        b'A' + (digit - 10)
    }
}

// #[tactic(auto, using(crate::proofs::lemmas::ErrorTexts::hex_list_is_ascii))]
#[inline] fn put_hex_list(bytes: &[u8], out: &mut [u8], at: usize) -> usize
    // requires { at + (4 * length bytes.now - 2) ≤ length out.old }
    // ensures written { take result out.new ≡ take at out.old ++ hex_list bytes.now }
    // ensures fits { result ≤ at + (4 * length bytes.now - 2) }
    // ensures ascii { IsAscii (hex_list bytes.now) }
{
    let [first, rest @ ..] = bytes else {
        return at;
    };
    let mut end = put_hex(*first, out, at);
    for byte in rest {
        end = put_bytes(b", ", out, end);
        end = put_hex(*byte, out, end);
    }
    end
}
