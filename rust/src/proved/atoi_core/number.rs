/* Made by .ci/translate from crates/atoi_core/src/number.rt. Do not edit. */ //! What a parse needs to know of an integer type.
// ghost use Rattle.std.specs.Prelude.{◌≡◌, ◌+◌, ◌^◌, ◌<◌, ◌≤◌, ◌<ℤ◌, ◌↔◌, ℕ, ℤ, pos, Bool, true, false, IsTrue, refl};
// ghost use Rattle.atoi_core.specs.IntType.{IntType, IsTypeOf, bound_of, limit_of, u8_type, i8_type, u16_type, i16_type, u32_type, i32_type, u64_type, i64_type, u128_type, i128_type, usize_type, isize_type};
// ghost use Rattle.atoi_core.specs.Magnitude.{IsBound};
// ghost use Rattle.atoi_core.specs.Sign.{with_sign};

/// An integer type that a parse can return: a *narrow* one of at most 32 bits, or a *wide* one of 64
/// or 128.
pub trait Number: Copy {
    /// The number of bits: 8, 16, 32, 64 or 128.
    const BITS: u32;

    // ghost BITS: { ℕ };

    /// Whether the type has negative values.
    const SIGNED: bool;

    // ghost SIGNED: { Bool };

    /// The largest value.
    const GREATEST: u128;

    // ghost GREATEST: { ℕ };

    // ghost int_type: { IntType };

    // ghost number: { Self → ℤ };

    /// Returns `value` as a number of the type.
    #[inline] fn from_pos(value: u128) -> Self
        // requires { value ≤ GREATEST }
        // ensures { number result ≡ pos value }
    {
        Self::from_parts(false, value)
    }

    /// Returns whether the value is negative, and its *magnitude*, the value without its sign.
    fn parts(self) -> (bool, u128)
        // ensures number { with_sign result.0 result.1 ≡ number self }
        // ensures negative { IsTrue result.0 ↔ (number self <ℤ pos 0) }
        /* ensures in_range { result.1 ≤ bound_of int_type result.0 } */;

    /// Returns the number with this sign and magnitude.
    fn from_parts(minus: bool, magnitude: u128) -> Self
        // requires signed { minus ≡ true → SIGNED ≡ true }
        // requires in_range { magnitude ≤ bound_of int_type minus }
        /* ensures { number result ≡ with_sign minus magnitude } */;

    // ghost type_is: { IsTypeOf int_type BITS SIGNED GREATEST };
}

/// An integer type with negative values.
pub trait Signed: Number {
    /// The magnitude of the smallest value.
    const LEAST_MAGNITUDE: u128;

    // ghost LEAST_MAGNITUDE: { ℕ };

    /// Returns minus `magnitude`.
    #[inline] fn from_neg(magnitude: u128) -> Self
        // requires { magnitude ≤ LEAST_MAGNITUDE }
        // ensures { Self.number result ≡ with_sign true magnitude }
    {
        Self::from_parts(true, magnitude)
    }

    // ghost signed: { (Self.SIGNED ≡ true) × (LEAST_MAGNITUDE ≡ Self.GREATEST + 1) };
}

/// Returns the magnitude of `T::MIN` if `minus` is set, otherwise `T::MAX`.
#[inline] pub fn greatest_magnitude<T: Number>(minus: bool) -> u128
    // requires signed { minus ≡ true → T.SIGNED ≡ true }
    // ensures value { result ≡ bound_of T.int_type minus }
    // ensures bound { IsBound T.BITS (limit_of T.int_type) result }
{
    T::GREATEST + u128::from(minus)
}

// Returns how many digits `T::MAX` has.
#[inline] pub(crate) fn limit_64<T: Number>() -> u32
    // requires wide { T.BITS ≡ 64 }
    // ensures { result ≡ limit_of T.int_type }
{
    if T::SIGNED { 19 } else { 20 }
}

#[inline] fn with_sign_64(minus: bool, magnitude: u64) -> i128
    // ensures { result ≡ with_sign minus magnitude }
{
    let number = i128::from(magnitude);
    if minus { -number } else { number }
}

impl Number for u8 {
    const BITS: u32 = 8;

    // ghost BITS = { 8 };

    const SIGNED: bool = false;

    // ghost SIGNED = { false };

    const GREATEST: u128 = 255;

    // ghost GREATEST = { 255 };

    // ghost int_type = { u8_type };

    // ghost number = { λ x. pos x };

    #[inline] fn parts(self) -> (bool, u128) {
        (false, u128::from(self))
    }

    #[inline] fn from_parts(_minus: bool, magnitude: u128) -> u8 {
        magnitude as u8
    }

    // ghost type_is = { record { bits_are = refl; sign_is = refl; greatest_is = refl; sized = record { bits = refl; greatest = refl } } };
}

impl Number for i8 {
    const BITS: u32 = 8;

    // ghost BITS = { 8 };

    const SIGNED: bool = true;

    // ghost SIGNED = { true };

    const GREATEST: u128 = 127;

    // ghost GREATEST = { 127 };

    // ghost int_type = { i8_type };

    // ghost number = { λ x. x };

    #[inline] fn parts(self) -> (bool, u128) {
        (self < 0, u128::from(self.unsigned_abs()))
    }

    #[inline] fn from_parts(minus: bool, magnitude: u128) -> i8 {
        with_sign_64(minus, magnitude as u64) as i8
    }

    // ghost type_is = { record { bits_are = refl; sign_is = refl; greatest_is = refl; sized = record { bits = refl; greatest = refl } } };
}

impl Signed for i8 {
    const LEAST_MAGNITUDE: u128 = 128;

    // ghost LEAST_MAGNITUDE = { 128 };

    // ghost signed = { (refl, refl) };
}

impl Number for u16 {
    const BITS: u32 = 16;

    // ghost BITS = { 16 };

    const SIGNED: bool = false;

    // ghost SIGNED = { false };

    const GREATEST: u128 = 65535;

    // ghost GREATEST = { 65535 };

    // ghost int_type = { u16_type };

    // ghost number = { λ x. pos x };

    #[inline] fn parts(self) -> (bool, u128) {
        (false, u128::from(self))
    }

    #[inline] fn from_parts(_minus: bool, magnitude: u128) -> u16 {
        magnitude as u16
    }

    // ghost type_is = { record { bits_are = refl; sign_is = refl; greatest_is = refl; sized = record { bits = refl; greatest = refl } } };
}

impl Number for i16 {
    const BITS: u32 = 16;

    // ghost BITS = { 16 };

    const SIGNED: bool = true;

    // ghost SIGNED = { true };

    const GREATEST: u128 = 32767;

    // ghost GREATEST = { 32767 };

    // ghost int_type = { i16_type };

    // ghost number = { λ x. x };

    #[inline] fn parts(self) -> (bool, u128) {
        (self < 0, u128::from(self.unsigned_abs()))
    }

    #[inline] fn from_parts(minus: bool, magnitude: u128) -> i16 {
        with_sign_64(minus, magnitude as u64) as i16
    }

    // ghost type_is = { record { bits_are = refl; sign_is = refl; greatest_is = refl; sized = record { bits = refl; greatest = refl } } };
}

impl Signed for i16 {
    const LEAST_MAGNITUDE: u128 = 32768;

    // ghost LEAST_MAGNITUDE = { 32768 };

    // ghost signed = { (refl, refl) };
}

impl Number for u32 {
    const BITS: u32 = 32;

    // ghost BITS = { 32 };

    const SIGNED: bool = false;

    // ghost SIGNED = { false };

    const GREATEST: u128 = 4294967295;

    // ghost GREATEST = { 4294967295 };

    // ghost int_type = { u32_type };

    // ghost number = { λ x. pos x };

    #[inline] fn parts(self) -> (bool, u128) {
        (false, u128::from(self))
    }

    #[inline] fn from_parts(_minus: bool, magnitude: u128) -> u32 {
        magnitude as u32
    }

    // ghost type_is = { record { bits_are = refl; sign_is = refl; greatest_is = refl; sized = record { bits = refl; greatest = refl } } };
}

impl Number for i32 {
    const BITS: u32 = 32;

    // ghost BITS = { 32 };

    const SIGNED: bool = true;

    // ghost SIGNED = { true };

    const GREATEST: u128 = 2147483647;

    // ghost GREATEST = { 2147483647 };

    // ghost int_type = { i32_type };

    // ghost number = { λ x. x };

    #[inline] fn parts(self) -> (bool, u128) {
        (self < 0, u128::from(self.unsigned_abs()))
    }

    #[inline] fn from_parts(minus: bool, magnitude: u128) -> i32 {
        with_sign_64(minus, magnitude as u64) as i32
    }

    // ghost type_is = { record { bits_are = refl; sign_is = refl; greatest_is = refl; sized = record { bits = refl; greatest = refl } } };
}

impl Signed for i32 {
    const LEAST_MAGNITUDE: u128 = 2147483648;

    // ghost LEAST_MAGNITUDE = { 2147483648 };

    // ghost signed = { (refl, refl) };
}

impl Number for u64 {
    const BITS: u32 = 64;

    // ghost BITS = { 64 };

    const SIGNED: bool = false;

    // ghost SIGNED = { false };

    const GREATEST: u128 = 18446744073709551615;

    // ghost GREATEST = { 18446744073709551615 };

    // ghost int_type = { u64_type };

    // ghost number = { λ x. pos x };

    #[inline] fn parts(self) -> (bool, u128) {
        (false, u128::from(self))
    }

    #[inline] fn from_parts(_minus: bool, magnitude: u128) -> u64 {
        magnitude as u64
    }

    // ghost type_is = { record { bits_are = refl; sign_is = refl; greatest_is = refl; sized = record { bits = refl; greatest = refl } } };
}

impl Number for i64 {
    const BITS: u32 = 64;

    // ghost BITS = { 64 };

    const SIGNED: bool = true;

    // ghost SIGNED = { true };

    const GREATEST: u128 = 9223372036854775807;

    // ghost GREATEST = { 9223372036854775807 };

    // ghost int_type = { i64_type };

    // ghost number = { λ x. x };

    #[inline] fn parts(self) -> (bool, u128) {
        (self < 0, u128::from(self.unsigned_abs()))
    }

    #[inline] fn from_parts(minus: bool, magnitude: u128) -> i64 {
        with_sign_64(minus, magnitude as u64) as i64
    }

    // ghost type_is = { record { bits_are = refl; sign_is = refl; greatest_is = refl; sized = record { bits = refl; greatest = refl } } };
}

impl Signed for i64 {
    const LEAST_MAGNITUDE: u128 = 9223372036854775808;

    // ghost LEAST_MAGNITUDE = { 9223372036854775808 };

    // ghost signed = { (refl, refl) };
}

impl Number for u128 {
    const BITS: u32 = 128;

    // ghost BITS = { 128 };

    const SIGNED: bool = false;

    // ghost SIGNED = { false };

    const GREATEST: u128 = 340282366920938463463374607431768211455;

    // ghost GREATEST = { 340282366920938463463374607431768211455 };

    // ghost int_type = { u128_type };

    // ghost number = { λ x. pos x };

    #[inline] fn parts(self) -> (bool, u128) {
        (false, self)
    }

    #[inline] fn from_parts(_minus: bool, magnitude: u128) -> u128 {
        magnitude
    }

    // ghost type_is = { record { bits_are = refl; sign_is = refl; greatest_is = refl; sized = record { bits = refl; greatest = refl } } };
}

impl Number for i128 {
    const BITS: u32 = 128;

    // ghost BITS = { 128 };

    const SIGNED: bool = true;

    // ghost SIGNED = { true };

    const GREATEST: u128 = 170141183460469231731687303715884105727;

    // ghost GREATEST = { 170141183460469231731687303715884105727 };

    // ghost int_type = { i128_type };

    // ghost number = { λ x. x };

    #[inline] fn parts(self) -> (bool, u128) {
        (self < 0, self.unsigned_abs())
    }

    #[inline] fn from_parts(minus: bool, magnitude: u128) -> i128 {
        if !minus {
            magnitude as i128
        } else if magnitude == Self::LEAST_MAGNITUDE {
            i128::MIN
        } else {
            -(magnitude as i128)
        }
    }

    // ghost type_is = { record { bits_are = refl; sign_is = refl; greatest_is = refl; sized = record { bits = refl; greatest = refl } } };
}

impl Signed for i128 {
    const LEAST_MAGNITUDE: u128 = 170141183460469231731687303715884105728;

    // ghost LEAST_MAGNITUDE = { 170141183460469231731687303715884105728 };

    // ghost signed = { (refl, refl) };
}

impl Number for usize {
    const BITS: u32 = 64;

    // ghost BITS = { 64 };

    const SIGNED: bool = false;

    // ghost SIGNED = { false };

    const GREATEST: u128 = 18446744073709551615;

    // ghost GREATEST = { 18446744073709551615 };

    // ghost int_type = { usize_type };

    // ghost number = { λ x. pos x };

    #[inline] fn parts(self) -> (bool, u128) {
        (false, self as u128)
    }

    #[inline] fn from_parts(_minus: bool, magnitude: u128) -> usize {
        magnitude as usize
    }

    // ghost type_is = { record { bits_are = refl; sign_is = refl; greatest_is = refl; sized = record { bits = refl; greatest = refl } } };
}

impl Number for isize {
    const BITS: u32 = 64;

    // ghost BITS = { 64 };

    const SIGNED: bool = true;

    // ghost SIGNED = { true };

    const GREATEST: u128 = 9223372036854775807;

    // ghost GREATEST = { 9223372036854775807 };

    // ghost int_type = { isize_type };

    // ghost number = { λ x. x };

    #[inline] fn parts(self) -> (bool, u128) {
        (self < 0, self.unsigned_abs() as u128)
    }

    #[inline] fn from_parts(minus: bool, magnitude: u128) -> isize {
        with_sign_64(minus, magnitude as u64) as isize
    }

    // ghost type_is = { record { bits_are = refl; sign_is = refl; greatest_is = refl; sized = record { bits = refl; greatest = refl } } };
}

impl Signed for isize {
    const LEAST_MAGNITUDE: u128 = 9223372036854775808;

    // ghost LEAST_MAGNITUDE = { 9223372036854775808 };

    // ghost signed = { (refl, refl) };
}
