/* Made by .ci/translate from crates/atoi_core/src/error.rt. Do not edit. */ //! The error of a parse, and the order of errors.
// ghost use Rattle.std.specs.Prelude.{◌≡◌, ◌↔◌, IsTrue, Some};
// ghost use Rattle.atoi_core.specs.Refusal.{refusal_of, refusal_cmp};

use core::cmp::Ordering;
use core::error::Error;

/// Why a slice was refused: the first variant here that applies.
///
/// Numbers, offsets and slices are about the *body*, the slice after its sign. Errors are ordered by
/// variant, then by their numbers from left to right, then by their slices. See the
/// [guide](crate::guide#errors).
///
/// ```
/// use torkettle::{AtoiSimdError::*, parse};
/// assert_eq!(parse::<u8, false, false>(b"+5"), Err(Empty));
/// assert_eq!(parse::<u8, false, false>(b"256"), Err(Overflow(b"256")));
/// assert_eq!(parse::<u8, false, true>(b"+12x"), Err(Invalid64(12, 2, b"12x")));
/// let text = b"000018446744073709551616"; // 24 digits, of which a `u64` may have 20
/// assert_eq!(parse::<u64, false, false>(text), Err(Size(24, text)));
/// ```
#[derive(Debug, Clone, Copy, PartialOrd, Ord, PartialEq, Eq)]
pub enum AtoiSimdError<'a> {
    /// The body does not start with a digit.
    Empty,
    /// Too many digits, not counting skipped zeros: more than 20 for `u64` and `usize`, 19 for `i64`
    /// and `isize`, 39 for types of 128 bits, or 16 for a prefix of a narrower type without
    /// `SKIP_ZEROES`.
    ///
    /// Holds how many digits there are, skipped zeros included, and the body without these zeros. After
    /// the zeros, at most 17 digits are counted, or 24 for 64 bits and 40 for 128 bits.
    Size(usize, &'a [u8]),
    /// The value does not fit in the type.
    ///
    /// Holds the body. For types of 64 and 128 bits, skipped zeros are left out. For a prefix of a
    /// narrower type, whole blocks of 16 skipped zeros are left out, or all skipped zeros if the block in
    /// which they end is full of digits.
    Overflow(&'a [u8]),
    /// Another byte follows the digits, in a call that reads the whole slice, for types of at most 64
    /// bits. Holds the value of the digits without the sign, the offset of that byte, and the body.
    Invalid64(u64, usize, &'a [u8]),
    /// The same as `Invalid64`, for types of 128 bits.
    Invalid128(u128, usize, &'a [u8]),
}

/// What a parse returns: a `T`, or why the slice was refused.
pub type Parsed<'a, T> = Result<T, AtoiSimdError<'a>>;

impl AtoiSimdError<'_> {
    /// Returns what `==` returns.
    #[doc(hidden)]
    #[inline] pub fn is_same_as(&self, other: &AtoiSimdError<'_>) -> bool
        // ensures { IsTrue result ↔ (refusal_of self.now ≡ refusal_of other.now) }
    {
        self == other
    }

    /// Returns what `partial_cmp` returns, which is never `None`.
    #[doc(hidden)]
    #[inline] pub fn partial_order(&self, other: &AtoiSimdError<'_>) -> Option<Ordering>
        // ensures { result ≡ Some (refusal_cmp (refusal_of self.now) (refusal_of other.now)) }
    {
        self.partial_cmp(other)
    }

    /// Returns what `cmp` returns.
    #[doc(hidden)]
    #[inline] pub fn order(&self, other: &AtoiSimdError<'_>) -> Ordering
        // ensures { result ≡ refusal_cmp (refusal_of self.now) (refusal_of other.now) }
    {
        self.cmp(other)
    }
}

impl Error for AtoiSimdError<'_> {}

/// Law: a clone of a `T` is the same value, and cloning never fails. A derived method has no clause
/// of its own, so the law is a `requires`, proved where this function is called.
#[inline] pub fn clones_are_the_same<T: Clone>()
    // requires same { (value copy : T) → T.is_clone value copy → copy ≡ value }
    // requires always { (value : T) → T.is_infallible value }
{}

#[inline] fn clones() {
    clones_are_the_same::<AtoiSimdError<'_>>();
}
