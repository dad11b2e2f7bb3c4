//! How numbers are read: by packages with the interface of the original, by std, and by a plain loop.

use std::str::FromStr;

/// What a loop needs of a type besides the traits of the libraries.
pub trait Number: crate::sides::Parsed + FromStr + Copy {
    const IS_SIGNED: bool;
    const ZERO: Self;

    /// The low 64 bits.
    fn bits(self) -> u64;

    /// The number with one digit more, if it is in range. With a minus, it grows downwards.
    fn push(self, digit: u8, has_minus: bool) -> Option<Self>;
}

macro_rules! numbers {
    ($($type:ident as $unsigned:ident)*) => {
        $(impl Number for $type {
            const IS_SIGNED: bool = $type::MIN != 0;
            const ZERO: $type = 0;

            #[inline(always)]
            fn bits(self) -> u64 {
                self as $unsigned as u64
            }

            #[inline(always)]
            fn push(self, digit: u8, has_minus: bool) -> Option<$type> {
                let tens = self.checked_mul(10)?;
                match has_minus {
                    true => tens.checked_sub(digit as $type),
                    false => tens.checked_add(digit as $type),
                }
            }
        })*
    };
}

numbers! {
    u8 as u8 u16 as u16 u32 as u32 u64 as u64 u128 as u128
    i8 as u8 i16 as u16 i32 as u32 i64 as u64 i128 as u128
}

pub trait Reader {
    /// Reads a whole text. The flags are those of `parse`: for zeroes, and for a plus.
    fn whole<T: Number, const Z: bool, const P: bool>(text: &[u8]) -> Option<T>;

    /// Reads the number at the start of a text.
    fn prefix<T: Number, const Z: bool, const P: bool>(text: &[u8]) -> Option<(T, usize)>;
}

/// `str::parse`, for a prefix after a search for its end.
pub struct Standard;

impl Reader for Standard {
    #[inline(always)]
    fn whole<T: Number, const Z: bool, const P: bool>(text: &[u8]) -> Option<T> {
        // SAFETY: the texts are ASCII. They are not checked, since that would be timed too.
        unsafe { std::str::from_utf8_unchecked(text) }.parse().ok()
    }

    #[inline(always)]
    fn prefix<T: Number, const Z: bool, const P: bool>(text: &[u8]) -> Option<(T, usize)> {
        let sign = usize::from(text.starts_with(b"-"));
        let digits = text[sign..].iter().position(|byte| !byte.is_ascii_digit());
        let length = digits.map_or(text.len(), |digits| sign + digits);
        Some((Self::whole::<T, Z, P>(&text[..length])?, length))
    }
}

/// A loop over the bytes, with checks for overflow.
pub struct ByteLoop;

impl ByteLoop {
    // Reads the digits from a place on.
    #[inline(always)]
    fn digits<T: Number>(text: &[u8], start: usize, has_minus: bool) -> Option<(T, usize)> {
        let (mut number, mut at) = (T::ZERO, start);
        while at < text.len() {
            let digit = text[at].wrapping_sub(b'0');
            if digit > 9 {
                break;
            }
            number = number.push(digit, has_minus)?;
            at += 1;
        }
        (at > start).then_some((number, at))
    }
}

impl Reader for ByteLoop {
    #[inline(always)]
    fn whole<T: Number, const Z: bool, const P: bool>(text: &[u8]) -> Option<T> {
        let (number, length) = Self::prefix::<T, Z, P>(text)?;
        (length == text.len()).then_some(number)
    }

    #[inline(always)]
    fn prefix<T: Number, const Z: bool, const P: bool>(text: &[u8]) -> Option<(T, usize)> {
        match T::IS_SIGNED && text.first() == Some(&b'-') {
            true => Self::digits(text, 1, true),
            false => Self::digits(text, 0, false),
        }
    }
}

/// Makes a reader of each of these libraries, and the trait of all types that they read.
#[macro_export]
macro_rules! libraries {
    ($($reader:ident = $($library:ident)::+,)*) => {
        pub trait Parsed: $($($library)::+::Parse +)* Sized {}

        impl<T: $($($library)::+::Parse +)* Sized> Parsed for T {}

        $(pub struct $reader;

        impl Reader for $reader {
            #[inline(always)]
            fn whole<T: Number, const Z: bool, const P: bool>(text: &[u8]) -> Option<T> {
                $($library)::+::parse::<T, Z, P>(text).ok()
            }

            #[inline(always)]
            fn prefix<T: Number, const Z: bool, const P: bool>(text: &[u8]) -> Option<(T, usize)> {
                $($library)::+::parse_prefix::<T, Z, P>(text).ok()
            }
        })*
    };
}

/// Gives a reader what packages have besides the interface of the original: loops over columns, and over jobs by formats.
#[macro_export]
macro_rules! packages {
    ($($reader:ident = $package:ident,)*) => {
        $(impl $reader {
            #[inline(always)]
            pub fn fields<T: Number>(texts: &Texts) -> Option<u64> {
                let fields = $package::column::Fields::<T>::new(texts.text(), b',');
                crate::sum!(item in fields => item.ok()?.bits())
            }

            #[inline(always)]
            pub fn column<T: Number>(texts: &Texts) -> Option<u64> {
                let column = $package::column::Column::<T>::new(texts.text(), b',');
                crate::sum!(item in column => item.ok()?.bits())
            }

            #[inline(always)]
            pub fn read<T: Number>(texts: &Texts) -> Option<u64> {
                let mut fields = $package::column::Fields::<T>::new(texts.text(), b',');
                let (mut values, mut sum) = ([T::ZERO; 1024], 0_u64);
                loop {
                    let read = fields.read(&mut values);
                    for value in &values[..read] {
                        sum = sum.wrapping_add(value.bits());
                    }
                    if read < values.len() {
                        return fields.next().is_none().then_some(sum);
                    }
                }
            }

            #[inline(always)]
            pub fn iso_dates(texts: &Texts) -> Option<u64> {
                crate::records!(texts as text, sum: {
                    let (year, rest) = $package::formats::fixed_width::<u16>(text, 4)?;
                    (text, sum) = (rest, sum.wrapping_add(u64::from(year)));
                    for before in *b"--T::" {
                        let rest = text.strip_prefix(&[before])?;
                        let (number, rest) = $package::formats::fixed_width::<u8>(rest, 2)?;
                        (text, sum) = (rest, sum.wrapping_add(u64::from(number)));
                    }
                    text = text.strip_prefix(b"Z\n")?;
                })
            }

            #[inline(always)]
            pub fn ipv4(texts: &Texts) -> Option<u64> {
                crate::records!(texts as text, sum: {
                    for end in *b"...\n" {
                        let (number, rest) = $package::formats::canonical_then::<u8>(text, end)?;
                        (text, sum) = (rest, sum.wrapping_add(u64::from(number)));
                    }
                })
            }

            #[inline(always)]
            pub fn semver(texts: &Texts) -> Option<u64> {
                crate::records!(texts as text, sum: {
                    for end in *b"..\n" {
                        let (number, rest) = $package::formats::digits_then::<u64>(text, end)?;
                        (text, sum) = (rest, sum.wrapping_add(number));
                    }
                })
            }
        })*
    };
}
