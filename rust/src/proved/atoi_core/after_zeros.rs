/* Made by .ci/translate from crates/atoi_core/src/after_zeros.rt. Do not edit. */ //! The loop that skips zeros, over any engine's windows.
// ghost use Rattle.std.specs.Prelude.{◌≡◌, ◌+◌, ◌*◌, ◌/◌, ◌<◌, ◌≤◌, nat_lt, if◌then◌else◌, length, drop};
// ghost use Rattle.atoi_core.specs.Run.{run_len, zeros};
// ghost use Rattle.atoi_core.specs.Reading.{window_of};

use crate::proved::atoi_core::engine::Engine;
use crate::proved::atoi_core::engine::steps::Steps;
use crate::proved::atoi_core::engine::window::Window;

/// Skips zeros window by window, from a first window that reported `zeroes`. Returns the first
/// window that reports no zeros, and its offset.
#[inline(always)]
// #[tactic(auto, using(std::proofs::lemmas::List::take_rest))]
pub fn window_after_zeros<E: Engine>(zeroes: u32, s: &[u8], steps: &mut Steps) -> (usize, Window)
    // requires some { 0 < zeroes }
    // requires first_window { zeroes ≡ (window_of E.table 16 s.now).zeroes }
    // ensures some { 0 < result.0 }
    // ensures inside { result.0 ≤ length s.now }
    // ensures offset { result.0
    //     ≡ (if nat_lt (zeros E.table s.now / 16) (run_len E.table s.now / 16)
    //     then zeros E.table s.now else 16 * (zeros E.table s.now / 16)) }
    // ensures window { result.1 ≡ window_of E.table 16 (drop result.0 s.now) }
    // ensures no_zeros { result.1.zeroes ≡ 0 }
    // ensures loads { steps.new ≡ steps.old + (result.0 + 15) / 16 }
{
    let mut at = zeroes as usize;
    loop {
        let window = E::window(&s[at..], steps);
        if window.zeroes == 0 {
            return (at, window);
        }
        at += window.zeroes as usize;
    }
}
