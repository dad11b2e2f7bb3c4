//! The twelve integer types.

use std::str::from_utf8;

/// An integer type whose values can be turned into numbers of fixed types.
pub trait Bits: Copy {
    /// Returns whether the value is below zero, and its magnitude.
    fn parts(self) -> (bool, u128);
}

macro_rules! integers {
    ($($variant:ident: $type:ty,)*) => {
        /// One of the types. Their order is the order of their numbers in `tools/compare/exports/ask.rt.in`.
        #[derive(Clone, Copy, PartialEq, Eq)]
        pub enum Integer {
            $($variant,)*
        }

        impl Integer {
            /// Every type, in the order of their numbers.
            pub const ALL: [Integer; 12] = [$(Integer::$variant,)*];

            /// The name of the type.
            pub fn name(self) -> &'static str {
                match self {
                    $(Integer::$variant => stringify!($type),)*
                }
            }

            /// How many bits it has.
            pub fn bits(self) -> u32 {
                match self {
                    $(Integer::$variant => <$type>::BITS,)*
                }
            }

            /// Its largest value.
            pub fn greatest(self) -> u128 {
                match self {
                    $(Integer::$variant => <$type>::MAX as u128,)*
                }
            }

            /// Returns the sign and the magnitude of the value that `str::parse` reads from a text, or `None`
            /// if it returns an error or the text is not UTF-8.
            pub fn parse(self, text: &[u8]) -> Option<(bool, u128)> {
                let text = from_utf8(text).ok()?;
                match self {
                    $(Integer::$variant => text.parse::<$type>().ok().map(Bits::parts),)*
                }
            }
        }

        $(impl Bits for $type {
            fn parts(self) -> (bool, u128) {
                let is_negative = <$type>::MIN != 0 && self.leading_zeros() == 0;
                let bits = self as u128;
                (is_negative, if is_negative { bits.wrapping_neg() } else { bits })
            }
        })*
    };
}

integers! {
    U8: u8,
    I8: i8,
    U16: u16,
    I16: i16,
    U32: u32,
    I32: i32,
    U64: u64,
    I64: i64,
    U128: u128,
    I128: i128,
    Usize: usize,
    Isize: isize,
}

impl Integer {
    /// Whether it has negative numbers.
    pub fn is_signed(self) -> bool {
        self.name().starts_with('i')
    }

    /// Returns the magnitude of the type's smallest value if `minus`, and otherwise its largest
    /// value. If `minus`, the type must be signed.
    pub fn bound(self, minus: bool) -> u128 {
        self.greatest() + u128::from(minus)
    }
}
