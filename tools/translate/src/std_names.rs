//! The names of Rattle's `std` that the sources use. Each is listed after a look at what differs silently between
//! Rattle and Rust. No other is known.

/// The types of whole numbers.
pub const INTEGERS: [&str; 12] =
    ["u8", "u16", "u32", "u64", "u128", "usize", "i8", "i16", "i32", "i64", "i128", "isize"];

/// Other types, traits and variants that need no `use`, and the vectors that are imported together, for which
/// `rust/src/simd` stands.
const BUILT_IN: &str = "bool str Clone Copy Debug Eq Iterator Ord PartialEq PartialOrd Option Some None \
    Result Ok Err u8x16 u16x8 u64x2";

/// Paths of `std`. Rust's `core` stands for it.
pub const PATHS: &str = "std::cmp::Ordering std::error::Error std::fmt std::fmt::Display std::fmt::Result \
    std::iter::FusedIterator std::marker::PhantomData std::num::IntErrorKind \
    std::num::IntErrorKind::Empty std::num::IntErrorKind::InvalidDigit \
    std::num::IntErrorKind::NegOverflow std::num::IntErrorKind::PosOverflow std::simd::prelude::* std::str::from_utf8";

/// The traits that may bound a type. Of others, such as `Eq` and `Ord`, Rattle proves laws of each type that has
/// them, and a user's type need not keep these.
pub const BOUNDS: &str = "Clone Copy";

/// The traits that our types may have besides those that are derived.
pub const IMPLEMENTED: &str =
    "Iterator std::error::Error std::fmt::Display std::iter::FusedIterator";

/// Functions and constants of types. `from` is between integers.
pub const ASSOCIATED: &str = "MIN MAX from from_le_bytes from_array from_slice splat";

/// Methods. Only slices and ranges with an end are iterated, so that `count` and `enumerate` do not overflow.
/// `cmp` and `partial_cmp` compare numbers, or are derived. `unwrap`, `split_at` and `copy_from_slice` panic in
/// Rust alone, where proofs exclude it. No item of ours has such a name.
pub const METHODS: &str = "len is_empty as_bytes iter first first_chunk last_chunk split_at split_at_checked \
    split_first copy_from_slice is_ascii_digit checked_add checked_mul checked_sub cmp max min \
    partial_cmp saturating_add saturating_sub to_le_bytes trailing_ones trailing_zeros unsigned_abs \
    wrapping_add wrapping_mul wrapping_sub \
    count enumerate filter take_while ok unwrap write_str dot4 simd_eq simd_ge simd_le \
    reduce_sum swizzle_dyn_within to_array to_bitmask";

/// Says whether a name is built in.
pub fn is_built_in(name: &str) -> bool {
    INTEGERS.contains(&name) || has(BUILT_IN, name)
}

/// Says whether a name is in a list.
pub fn has(list: &str, name: &str) -> bool {
    list.split_whitespace().any(|listed| listed == name)
}

/// Says whether a name is written as those of types, variants and constants are.
pub fn is_capital(name: &str) -> bool {
    name.starts_with(|first: char| first.is_ascii_uppercase())
}
