/* Made by .ci/translate from crates/atoi_core/src/wide.rt. Do not edit. */ //! Parsers of all of a slice as an integer of 64 or 128 bits.
// ghost use Rattle.std.specs.Prelude.{◌≡◌, ◌≤◌};
// ghost use Rattle.atoi_core.specs.Loads.{ClassLoads};
// ghost use Rattle.atoi_core.specs.Magnitude.{HasDigits, IsBound64, wide64, wide128, whole_magnitude};
// ghost use Rattle.atoi_core.specs.Refusal.{answer_of};

use crate::proved::atoi_core::engine::Engine;
use crate::proved::atoi_core::engine::steps::Steps;
use crate::proved::atoi_core::error::AtoiSimdError;

/// Like `Engine::prefix_64`, but parses all of `s`. The errors are `Empty`, `Size`, `Overflow` and
/// `Invalid64`.
#[inline(always)]
// #[tactic(auto, using(crate::proofs::lemmas::LoopAnswers::whole_is_64))]
pub fn whole_64<'a, E: Engine>(
    bound: u64,
    limit: u32,
    skip: bool,
    s: &'a [u8],
    steps: &mut Steps,
) -> Result<u64, AtoiSimdError<'a>>
    // requires bound { IsBound64 limit bound }
    // ensures answer { answer_of result ≡ whole_magnitude E.table wide64 bound limit skip s.now }
    // ensures loads { ClassLoads E.table wide64 skip s.now steps.old steps.new }
{
    let (number, len) = E::prefix_64(bound, limit, skip, s, steps)?;
    if len == s.len() {
        Ok(number)
    } else {
        Err(AtoiSimdError::Invalid64(number, len, s))
    }
}

/// Like `Engine::prefix_128`, but parses all of `s`. The errors are `Empty`, `Size`, `Overflow` and
/// `Invalid128`.
#[inline(always)]
// #[tactic(auto, using(crate::proofs::lemmas::LoopAnswers::whole_is_128))]
pub fn whole_128<'a, E: Engine>(
    bound: u128,
    skip: bool,
    s: &'a [u8],
    steps: &mut Steps,
) -> Result<u128, AtoiSimdError<'a>>
    // requires digits { HasDigits 39 bound }
    // ensures answer { answer_of result ≡ whole_magnitude E.table wide128 bound 39 skip s.now }
    // ensures loads { ClassLoads E.table wide128 skip s.now steps.old steps.new }
{
    let (number, len) = E::prefix_128(bound, skip, s, steps)?;
    if len == s.len() {
        Ok(number)
    } else {
        Err(AtoiSimdError::Invalid128(number, len, s))
    }
}
