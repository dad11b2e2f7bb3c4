//! The tests of the package, but for those of `lanes.rs`.

mod columns;
mod formats;
mod from_ascii;
mod json;
#[cfg(feature = "std")]
mod line_reader;
mod recipes;
#[cfg(feature = "std")]
mod samples;
mod second_reading;
