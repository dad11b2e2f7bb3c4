/* Made by .ci/translate from crates/atoi_core/src/engine/steps.rt. Do not edit. */ //! A count that contracts see and that has no bytes.
// ghost use Rattle.std.specs.Prelude.{◌≡◌, ◌+◌, ℕ};
// ghost use Rattle.std.specs.Borrow.{ftrue};

use core::marker::{ PhantomData};

/// A count of steps. In a parse a step is a *load*, one read of a window.
// #[derive(Drop)]
pub struct Steps {
    marker: PhantomData<u8>,
    // A proof by hand could set it to any number: only the two functions below have one.
    // ghost number: { ℕ },
}

// impl Model for Steps {
//     ghost Value = { ℕ };

//     ghost view = { λ s. s.number };

//     ghost also_owns = { λ _. ftrue };
// }

impl Steps {
    /// Returns a count of 0.
    #[inline(always)]
    pub fn new() -> Steps
        // ensures { result ≡ 0 }
    {
        Steps {
            marker: PhantomData,
        }
    }

    /// Counts one step more.
    #[inline(always)]
    pub fn tick(&mut self)
        // ensures { self.new ≡ self.old + 1 }
    {}
}
