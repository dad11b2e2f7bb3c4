/* Made by .ci/translate from crates/atoi_column/src/text.rt. Do not edit. */ //! Parts of the messages of errors, written into an array.
// ghost use Rattle.std.specs.Prelude.{◌≡◌, ◌+◌, ◌≤◌, ◌++◌, length, take, decimal, IsAscii};
// ghost use Rattle.atoi_core.specs.Refusal.{refusal_of};
// ghost use Rattle.atoi_column.specs.ErrorText.{fault_text, flaw_text};
// ghost use Rattle.atoi_column.specs.Items.{field};

use crate::proved::atoi_core::decimal;
use crate::proved::atoi_simd::AtoiSimdError;

// No message is longer.
pub(crate) const MOST_BYTES: usize = 200;

// Writes the message of an error in the field `index`, which starts at offset `place`, to the start of
// `out`. Each `put_` function returns the offset after what it writes.
#[inline] pub(crate) fn put_field(
    index: usize,
    place: usize,
    cause: AtoiSimdError<'_>,
    out: &mut [u8; MOST_BYTES],
) -> usize
    // ensures written { take result out.new ≡ flaw_text (field index place (refusal_of cause.entry)) }
    // ensures fits { result ≤ 119 }
    // ensures ascii { IsAscii (flaw_text (field index place (refusal_of cause.entry))) }
{
    let end = put_bytes(b"field ", out, 0);
    let end = put_decimal(index as u128, out, end);
    let end = put_bytes(b" at byte ", out, end);
    let end = put_decimal(place as u128, out, end);
    let end = put_bytes(b" ", out, end);
    put_bytes(fault(cause).as_bytes(), out, end)
}

// Says what is wrong with a field, in words that follow its place.
#[inline] pub(crate) fn fault(cause: AtoiSimdError<'_>) -> &'static str
    // ensures text { result.now ≡ fault_text (refusal_of cause.entry) }
    // ensures fits { length result.now ≤ 25 }
{
    match cause {
        AtoiSimdError::Empty => "has no digit at its start",
        AtoiSimdError::Size(..) | AtoiSimdError::Overflow(_) => "is out of range",
        AtoiSimdError::Invalid64(..) | AtoiSimdError::Invalid128(..) => "has an unexpected byte",
    }
}

#[inline] pub(crate) fn put_bytes(bytes: &[u8], out: &mut [u8], at: usize) -> usize
    // requires { at + length bytes.now ≤ length out.old }
    // ensures written { take result out.new ≡ take at out.old ++ bytes.now }
    // ensures place { result ≡ at + length bytes.now }
{
    let end = at + bytes.len();
    out[at..end].copy_from_slice(bytes);
    end
}

#[inline] pub(crate) fn put_decimal(value: u128, out: &mut [u8], at: usize) -> usize
    // requires { at + 39 ≤ length out.old }
    // ensures written { take result out.new ≡ take at out.old ++ decimal value }
    // ensures fits { result ≤ at + 39 }
    // ensures ascii { IsAscii (decimal value) }
{
    let mut digits = [0; 39];
    let length = decimal(value, &mut digits);
    put_bytes(&digits[..length], out, at)
}
