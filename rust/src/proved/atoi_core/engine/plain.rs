/* Made by .ci/translate from crates/atoi_core/src/engine/plain.rt. Do not edit. */ //! Byte by byte: the reference engine and parse, which only tests run.
// ghost use Rattle.std.specs.Prelude.{◌≡◌, ◌≤◌, false};
// ghost use Rattle.atoi_core.specs.Digit.{decimal_table};
// ghost use Rattle.atoi_core.specs.Refusal.{answer_of};
// ghost use Rattle.atoi_core.specs.Magnitude.{narrow, whole_magnitude};
// ghost use Rattle.std.proofs.Common.{arith};
// ghost use Rattle.std.proofs.lemmas.Bool.Decides.{nat_tests};

use crate::proved::atoi_core::engine::alphabet::Alphabet;
use crate::proved::atoi_core::error::AtoiSimdError;

/// The alphabet of decimal digits.
pub struct Plain;

impl Alphabet for Plain {
    // ghost table = { decimal_table };

    #[inline(always)]
    fn digit_value(byte: u8) -> Option<u64> {
        match byte {
            b'0'..=b'9' => Some(u64::from(byte - b'0')),
            _ => None,
        }
    }

    // ghost below_ten = { λ byte. Prim.grind (arith, nat_tests) };
}

/// Parses all of `s` as decimal digits, without a sign, up to `bound`, which is at most `u32::MAX`.
/// The errors are `Empty`, `Overflow` and `Invalid64`.
// #[tactic(auto, using(crate::proofs::lemmas::LoopAnswers::narrow_whole_none, crate::proofs::lemmas::LoopAnswers::narrow_whole_over))]
#[inline] pub fn narrow_whole(bound: u64, s: &[u8]) -> Result<u64, AtoiSimdError<'_>>
    // requires low { 9 ≤ bound }
    // requires high { bound ≤ 4294967295 }
    // ensures answer { answer_of result ≡ whole_magnitude decimal_table narrow bound 0 false s.now }
{
    let mut number = 0;
    for (at, byte) in s.iter().enumerate() {
        let Some(digit_value) = Plain::digit_value(*byte) else {
            if at == 0 {
                return Err(AtoiSimdError::Empty);
            }
            return Err(AtoiSimdError::Invalid64(number, at, s));
        };
        let next = number * 10 + digit_value;
        if next > bound {
            return Err(AtoiSimdError::Overflow(s));
        }
        number = next;
    }
    if s.is_empty() {
        Err(AtoiSimdError::Empty)
    } else {
        Ok(number)
    }
}
