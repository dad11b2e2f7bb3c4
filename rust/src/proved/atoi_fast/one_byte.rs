/* Made by .ci/translate from crates/atoi_fast/src/one_byte.rt. Do not edit. */ //! The window of at most one byte, for both engines: most numbers of many texts have one digit.
// ghost use Rattle.std.specs.Prelude.{◌≡◌, ◌≤◌, length};
// ghost use Rattle.atoi_core.specs.Digit.{decimal_table};
// ghost use Rattle.atoi_core.specs.Reading.{window_of};

use crate::proved::atoi_core::Window;

/// Returns the window of 16 bytes, and of 8, of a slice of at most one.
#[inline(always)]
pub(crate) fn window_of_one(s: &[u8]) -> Window
    // requires { length s.now ≤ 1 }
    // ensures of_16 { result ≡ window_of decimal_table 16 s.now }
    // ensures of_8 { result ≡ window_of decimal_table 8 s.now }
{
    match s {
        [digit @ b'0'..=b'9', ..] => Window::not_full(1, u64::from(*digit - b'0')),
        _ => Window::not_full(0, 0),
    }
}
