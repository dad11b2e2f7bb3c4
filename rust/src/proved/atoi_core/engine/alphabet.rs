/* Made by .ci/translate from crates/atoi_core/src/engine/alphabet.rt. Do not edit. */ //! Which bytes are digits. Each alphabet is an engine that reads its windows byte by byte.
// ghost use Rattle.std.specs.Prelude.{◌≡◌, ◌≤◌, length};
// ghost use Rattle.atoi_core.specs.Digit.{Table, IsBelowTen};
// ghost use Rattle.atoi_core.specs.Run.{run_len, run, value, zeros};
// ghost use Rattle.atoi_core.specs.Reading.{window_of};

use crate::proved::atoi_core::engine::Engine;
use crate::proved::atoi_core::engine::steps::Steps;
use crate::proved::atoi_core::engine::window::Window;

/// A table of digits that code can look up.
pub trait Alphabet {
    // ghost table: { Table };

    /// Returns the digit value of `byte`, if it is a digit.
    fn digit_value(byte: u8) -> Option<u64>
        /* ensures { result ≡ table byte } */;

    // ghost below_ten: { IsBelowTen table };
}

impl<A: Alphabet> Engine for A {
    // ghost table = { A.table };

    #[inline] fn window(s: &[u8], steps: &mut Steps) -> Window {
        steps.tick();
        front_of::<A>(16, s)
    }

    #[inline] fn window_8(s: &[u8], steps: &mut Steps) -> Window {
        steps.tick();
        front_of::<A>(8, s)
    }

    // ghost below_ten = { A.below_ten };
}

#[inline] fn front_of<A: Alphabet>(size: usize, s: &[u8]) -> Window
    // requires { size ≤ 16 }
    // ensures { result ≡ window_of A.table size s.now }
{
    let front = &s[..size.min(s.len())];
    let (len, number) = read_run::<A>(front);
    let zeroes = if len as usize == size {
        count_zeros::<A>(front)
    } else {
        0
    };
    Window {
        len,
        zeroes,
        number,
    }
}

// Returns how many digits `s` starts with, and their value.
#[inline(always)]
fn read_run<A: Alphabet>(s: &[u8]) -> (u32, u64)
    // requires { length s.now ≤ 16 }
    // ensures { result ≡ (run_len A.table s.now, value A.table (run A.table s.now)) }
{
    let mut number = 0;
    for (len, byte) in s.iter().enumerate() {
        let Some(digit_value) = A::digit_value(*byte) else {
            return (len as u32, number);
        };
        number = number * 10 + digit_value;
    }
    (s.len() as u32, number)
}

#[inline] fn count_zeros<A: Alphabet>(s: &[u8]) -> u32
    // requires { length s.now ≤ 16 }
    // ensures { result ≡ zeros A.table s.now }
{
    for (at, byte) in s.iter().enumerate() {
        if A::digit_value(*byte) != Some(0) {
            return at as u32;
        }
    }
    s.len() as u32
}
