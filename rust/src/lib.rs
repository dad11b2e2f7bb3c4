//! Parses decimal integers from byte slices, for the twelve integer types of Rust: exactly, without
//! allocation and, unless the feature `lanes` is on, without `unsafe` code. Only the feature `std` needs
//! an operating system.
//!
//! ```
//! use torkettle::{from_ascii, from_ascii_prefix};
//!
//! assert_eq!(from_ascii::<u8>(b"042"), Ok(42));
//! assert_eq!(from_ascii::<u8>(b"256").unwrap_err().to_string(), "number out of range");
//! assert_eq!(from_ascii_prefix::<u16>(b"8080/tcp"), Ok((8080, 4)));
//! ```
//!
//! | To read | Call |
//! |---|---|
//! | a slice that is one number | [`from_ascii`] |
//! | the number at the start of a slice, and its length | [`from_ascii_prefix`] |
//! | the same, with flags and the errors of `atoi_simd` | [`parse`], [`parse_prefix`] |
//! | digits without a sign, or after a `-` | [`parse_pos`], [`parse_neg`], [`parse_prefix_pos`], [`parse_prefix_neg`] |
//! | numbers with a separator between them, or one per line | [`column::Fields`] |
//! | such numbers up to the first error | [`column::Column`] |
//! | the lines of a file of any size | `column::LineReader`, with the feature `std` |
//! | the integers of a version, a date, an address or JSON | the functions of [`formats`] |
//!
//! Without the flag `SKIP_ZEROES` of `parse`, leading zeros are accepted too, but they count as digits, and
//! some calls limit the number of digits ([`AtoiSimdError::Size`]). The [`guide`] has more: flags, errors,
//! files, embedded systems, debug builds and platforms. The [`recipes`] have code for common jobs. Links to
//! docs.rs work from the first release on.
//!
//! # In place of `atoi_simd`
//!
//! Names, signatures and results are those of the crate `atoi_simd` 0.18.1, apart from the differences
//! that `docs/DIFFERENCES.md` in the repository lists. To use this crate in its place, change one line of
//! `Cargo.toml`:
//!
//! ```toml
//! [dependencies]
//! atoi_simd = { package = "torkettle", path = "../torkettle" }
//! ```
//!
//! # What is proved, and what you trust
//!
//! The sources are written in Rattle, a dialect of Rust in which functions have contracts. A proof
//! checker has verified that every parser returns exactly what its contract says, for every input, and
//! that no input makes it panic or run forever. This crate is the same code as Rust, in which the
//! contracts are comments: "Source" shows them. No proof covers these three items. You trust them:
//!
//! 1. The proof checker of Rattle. It is not public, so you cannot repeat the proofs.
//! 2. Our definitions of the correct results, which the [`specification`] explains.
//! 3. The Rust code in `rust/src`, of which you can compare `rust/src/proved` with the Rattle sources in
//!    the repository, rustc, and Rust's `core`, which must do what Rattle's `std` specifies.
//!
//! Tests compare the results of this crate with the specification, with `str::parse`, with `atoi_simd`,
//! and with the build of Rattle's own compiler.
//!
//! # Features
//!
//! - `std`, which is on by default, adds `column::LineReader`, which reads lines of files. No proof covers
//!   it. Without `std`, the crate is `no_std` and does not allocate.
//! - `lanes` adds the module `lanes`, which has the ten functions of the root on vectors of sixteen bytes.
//!   It works on stable Rust and contains one `unsafe` expression. Any version may change it.
#![no_std]
#![cfg_attr(not(feature = "lanes"), forbid(unsafe_code))]
#![cfg_attr(feature = "lanes", deny(unsafe_code))]
#![warn(missing_docs, clippy::missing_errors_doc, clippy::missing_panics_doc)]

#[cfg(not(target_pointer_width = "64"))]
compile_error!("torkettle needs a target with 64-bit pointers: its proofs are for no others");

// `.ci/translate` makes these modules of the proved crates, and keeps the lines of their sources. Some of their
// public functions are only for the crates themselves, whose proofs meet their conditions.
#[cfg(target_pointer_width = "64")]
#[allow(dead_code, unused_imports, unused_variables)]
#[allow(clippy::manual_unwrap_or)] // The kit's `unwrap_or` has no proof here.
#[rustfmt::skip]
mod proved {
    pub mod atoi_column;
    pub mod atoi_core;
    pub mod atoi_fast;
    pub mod atoi_formats;
    #[cfg(feature = "lanes")]
    pub mod atoi_lanes;
    #[cfg(not(feature = "lanes"))]
    pub mod atoi_lanes {} // Its name stays for `atoi_simd`, which exports it to Rattle.
    pub mod atoi_simd;
}

#[cfg(all(target_pointer_width = "64", feature = "lanes"))]
mod simd;

#[cfg(target_pointer_width = "64")]
mod debug;

#[cfg(feature = "std")]
extern crate std;

#[cfg(all(target_pointer_width = "64", feature = "std"))]
mod line_reader;

#[cfg(target_pointer_width = "64")]
pub use proved::atoi_formats::{IntError, from_ascii, from_ascii_prefix};
#[cfg(target_pointer_width = "64")]
pub use proved::atoi_simd::{
    AtoiSimdError, Parse, ParseNeg, parse, parse_any, parse_any_neg, parse_any_pos, parse_neg,
    parse_pos, parse_prefix, parse_prefix_neg, parse_prefix_pos, parse_skipped,
};

/// The guide for Rust, which is `docs/GUIDE.md`.
///
// The first of two addresses by one name counts: here, those of other pages are these.
/// [rules]: crate::specification#the-result-for-a-body-magnitudeantt
/// [messages]: crate::specification#errors-refusalantt-errortextantt-errorkindsantt
/// [trust]: crate#what-is-proved-and-what-you-trust
/// [commands]: https://docs.rs/crate/torkettle/latest/source/docs/CONTRIBUTING.md
/// [readme]: https://docs.rs/crate/torkettle/latest
/// [recipes]: crate::recipes
/// [differences]: https://docs.rs/crate/torkettle/latest/source/docs/DIFFERENCES.md
/// [threads]: https://docs.rs/crate/torkettle/latest/source/rust/examples/threads.rs
///
#[cfg_attr(all(doc, not(doctest)), doc = include_str!("../../docs/GUIDE.md"))]
pub mod guide {}

/// Recipes for Rust, which are `docs/RECIPES.md`.
///
/// [guide]: crate::guide
/// [lanes]: crate::guide#lanes
///
#[cfg_attr(all(doc, not(doctest)), doc = include_str!("../../docs/RECIPES.md"))]
pub mod recipes {}

/// The specification, which is `docs/SPECIFICATION.md`. It says, for example:
///
/// ```
/// use torkettle::{AtoiSimdError, parse};
///
/// // A `u64` has at most 20 digits. Of more than that, `Size` counts at most 24.
/// let text = [b'7'; 99];
/// assert_eq!(parse::<u64, false, false>(&text), Err(AtoiSimdError::Size(24, &text)));
/// ```
///
/// [flags]: crate::guide#choose-the-flags
/// [functions]: crate::guide#parse-a-number
/// [lanes]: crate::guide#lanes
/// [readme]: https://docs.rs/crate/torkettle/latest
///
#[cfg_attr(all(doc, not(doctest)), doc = include_str!("../../docs/SPECIFICATION.md"))]
pub mod specification {}

/// Columns: the numbers of a byte slice that are separated by one byte, such as a comma.
///
/// [`Fields`](column::Fields) gives an item for every field, and goes on after a field that is not a
/// number. `Fields::lines` does the same for the lines of a file, which end with `\n` or `\r\n`.
///
/// ```
/// use torkettle::column::Fields;
///
/// let mut total = 0;
/// for item in Fields::<u64>::lines(b"80\r\n44x\r\n8080\r\n") {
///     match item {
///         Ok(number) => total += number,
///         Err(error) => assert_eq!((error.line(), error.place, error.text), (2, 4, &b"44x"[..])),
///     }
/// }
/// assert_eq!(total, 8160);
/// ```
///
/// [`Column`](column::Column) ends after the first field that is not a number, so that you can collect
/// or add up its items:
///
/// ```
/// use torkettle::column::{Column, ColumnError};
///
/// let total = |text| Column::<u16>::new(text, b',').sum::<Result<u16, ColumnError>>();
/// assert_eq!(total(b"80,443,8080"), Ok(8603));
/// assert_eq!(total(b"80,44x,8080"), Err(ColumnError::Trailing { index: 1, place: 5 }));
/// ```
///
/// With the feature `std`, `LineReader` reads the lines of a file that is larger than memory. Without it,
/// you can read an input in pieces. Each but the last must end with a separator:
///
/// ```
/// use torkettle::column::Fields;
///
/// let (mut index, mut place) = (0, 0);
/// let mut bad = Vec::new();
/// for piece in [&b"80\n44x\n"[..], b"443\n8O"] {
///     let mut lines = Fields::<u16>::lines(piece).starting_at(index, place);
///     bad.extend(lines.by_ref().filter_map(Result::err));
///     (index, place) = lines.position();
/// }
/// assert_eq!((bad[0].index, bad[0].place, bad[0].text), (1, 3, &b"44x"[..]));
/// assert_eq!((bad[1].index, bad[1].place, bad[1].text), (3, 11, &b"8O"[..]));
/// assert_eq!((index, place), (4, 13));
/// ```
///
/// The constructors panic if the separator is a digit, `+` or `-`.
#[cfg(target_pointer_width = "64")]
pub mod column {
    #[cfg(feature = "std")]
    pub use crate::line_reader::{Line, LineError, LineReader, Numbers};
    pub use crate::proved::atoi_column::{Column, ColumnError, FieldError, Fields, is_separator};
}

/// Numbers in the formats of files and protocols: a number and the byte after it, a number with a
/// fixed or limited number of digits, a number exactly as `{}` prints it, an integer of JSON.
///
/// Each function returns `None` if the text does not have the format. To parse a format of your own,
/// call them one after another:
///
/// ```
/// use torkettle::formats::{digits_then, fixed_width};
/// use torkettle::parse_pos;
///
/// fn version(text: &[u8]) -> Option<(u32, u32, u32)> {
///     let (major, rest) = digits_then(text, b'.')?;
///     let (minor, rest) = digits_then(rest, b'.')?;
///     Some((major, minor, parse_pos::<u32, true>(rest).ok()?))
/// }
///
/// // `20240229`
/// fn date(text: &[u8]) -> Option<(u16, u8, u8)> {
///     let (year, rest) = fixed_width(text, 4)?;
///     let (month, rest) = fixed_width(rest, 2)?;
///     let (day, rest) = fixed_width(rest, 2)?;
///     rest.is_empty().then_some((year, month, day))
/// }
///
/// assert_eq!(version(b"1.22.333"), Some((1, 22, 333)));
/// assert_eq!(version(b"1.22"), None);
/// assert_eq!(date(b"20240229"), Some((2024, 2, 29)));
/// assert_eq!(date(b"2024-2-9"), None);
/// ```
///
/// This adds up an array of JSON that has no spaces and is not empty:
///
/// ```
/// use torkettle::formats::{json_integer, strip_byte};
///
/// fn total(text: &[u8]) -> Option<i64> {
///     let mut rest = strip_byte(text, b'[')?;
///     let mut total = 0_i64;
///     loop {
///         let (number, tail) = json_integer::<i64>(rest)?;
///         total = total.checked_add(number)?;
///         match tail {
///             b"]" => return Some(total),
///             _ => rest = strip_byte(tail, b',')?,
///         }
///     }
/// }
///
/// assert_eq!(total(b"[12,-0,7]"), Some(19));
/// assert_eq!(total(b"[12,7.5]"), None);
/// ```
///
/// A function whose name ends with `_then` panics if you pass a digit as the byte after the number.
/// The [guide](crate::guide#read-other-formats) says which function reads which format.
#[cfg(target_pointer_width = "64")]
pub mod formats {
    pub use crate::proved::atoi_formats::{
        canonical, canonical_prefix, canonical_then, digits_between, digits_then, fixed_width,
        json_integer, number, number_then, strip_byte,
    };
}

/// The ten functions of the root, with the same results, computed with vectors of sixteen bytes.
///
/// Many calls on long numbers are faster, if the target has the feature `ssse3`, as with
/// `-C target-cpu=x86-64-v2`. Without that feature, use the functions at the root. `tools/bench/FIGURES.md`
/// has the figures. Any version may change this module. The [guide](crate::guide#lanes) shows its use.
///
/// ```
/// use torkettle::lanes::parse;
///
/// assert_eq!(parse::<u64, false, false>(b"18446744073709551615"), Ok(u64::MAX));
/// ```
#[cfg(all(target_pointer_width = "64", feature = "lanes"))]
pub mod lanes {
    pub use crate::proved::atoi_lanes::{
        AtoiSimdError, Parse, ParseNeg, parse, parse_any, parse_any_neg, parse_any_pos, parse_neg,
        parse_pos, parse_prefix, parse_prefix_neg, parse_prefix_pos, parse_skipped,
    };
}
