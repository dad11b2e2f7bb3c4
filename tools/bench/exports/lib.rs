//! The loops that are timed: `bench` wrote the last lines of this file, and copied the others.
#![allow(dead_code, unused_imports)]

pub mod loops;
pub mod readers;
pub mod texts;

/// Exports a loop. In a module of its own, it is compiled as in a program that has no other loop.
macro_rules! export {
    ($name:ident, $($code:tt)*) => {
        mod $name {
            use crate::{loops::*, sides::*, texts::*};

            /// # Safety
            /// The texts must be as `Texts` says.
            #[unsafe(no_mangle)]
            pub unsafe extern "C" fn $name(texts: *const Texts, _: usize) -> u64 {
                ($($code)*)(unsafe { &*texts }).unwrap_or(ERROR)
            }
        }
    };
}
