//! Compares `from_ascii` and `from_ascii_prefix` with `str::parse`: numbers, kinds and offsets of errors, and messages.
//! Compares the kinds of the errors of `parse`, too, and their offsets with the first byte that is wrong.
//!
//! `TORKETTLE_TEXTS` sets how many texts are generated.

use std::error::Error;
use std::fmt::Debug;
use std::num::IntErrorKind::{self, Empty, InvalidDigit};
use std::num::ParseIntError;
use std::str::FromStr;
use torkettle::{AtoiSimdError, IntError, Parse, from_ascii, from_ascii_prefix, parse};
use torkettle_common::random::Random;
use torkettle_common::texts;

// Each is read as one of the twelve types.
const TEXTS: usize = 2_000_000;

// Parts of short texts: every text of up to four of them is tried.
const PARTS: [&str; 13] =
    ["0", "7", "25", "128", "129", "256", "+", "-", "x", " ", "00", "9223372036854775808", "99"];

// What an error should say: its kind, its offset and its message.
type Expected = (IntErrorKind, usize, String);

fn said(error: IntError) -> Expected {
    (error.kind(), error.offset(), error.to_string())
}

// An error of the kind that std gives, where `end` is the offset after the sign and the digits.
#[allow(clippy::clone_on_copy)] // Older versions of rustc have no `Copy` for it.
fn expected(kind: &IntErrorKind, end: usize, has_digits: bool) -> Expected {
    let (offset, message) = match (kind, has_digits) {
        (Empty | InvalidDigit, true) => (end, format!("unexpected byte at byte {end}")),
        (Empty | InvalidDigit, false) => (end, format!("no digit at byte {end}")),
        _ => (0, "number out of range".to_string()),
    };
    (kind.clone(), offset, message)
}

// `text` is `bytes` with a `?` for each byte that is not ASCII, so that std can read it.
fn check<T>(text: &str, bytes: &[u8])
where
    T: Parse + Debug + PartialEq + FromStr<Err = ParseIntError>,
{
    let accepts_minus = "-0".parse::<T>().is_ok();
    let is_sign = |c: char| c == '+' || c == '-' && accepts_minus;
    let body = text.strip_prefix(is_sign).unwrap_or(text);
    let rest = body.trim_start_matches(|c: char| c.is_ascii_digit());
    let (end, has_digits) = (text.len() - rest.len(), body.len() > rest.len());

    let found = from_ascii::<T>(bytes).map_err(said);
    let of_std = text.parse::<T>().map_err(|error| expected(error.kind(), end, has_digits));
    assert_eq!(found, of_std, "from_ascii of {text:?}");

    let found = from_ascii_prefix::<T>(bytes).map_err(said);
    let of_std = text[..end].parse::<T>().map(|number| (number, end));
    let of_std = of_std.map_err(|error| match error.kind() {
        Empty | InvalidDigit if rest.is_empty() => expected(&Empty, end, false),
        Empty => expected(&InvalidDigit, end, false),
        kind => expected(kind, end, false),
    });
    assert_eq!(found, of_std, "from_ascii_prefix of {text:?}");

    let (Err(error), Err(of_std)) = (parse::<T, true, true>(bytes), text.parse::<T>()) else {
        return;
    };
    assert_eq!(&error.kind(bytes), of_std.kind(), "the kind of {text:?}");
    let offset = match error {
        AtoiSimdError::Empty => None,
        AtoiSimdError::Size(_, rest) | AtoiSimdError::Overflow(rest) => {
            Some(text.len() - rest.len())
        }
        _ => Some(end),
    };
    assert_eq!(error.offset_in(bytes), offset, "the offset in {text:?}");
}

const CHECKS: [fn(&str, &[u8]); 12] = [
    check::<u8>,
    check::<i8>,
    check::<u16>,
    check::<i16>,
    check::<u32>,
    check::<i32>,
    check::<u64>,
    check::<i64>,
    check::<u128>,
    check::<i128>,
    check::<usize>,
    check::<isize>,
];

#[test]
fn short_texts_are_read_as_by_std() {
    texts::each_of_parts(&PARTS, |text| {
        CHECKS.iter().for_each(|check| check(text, text.as_bytes()));
    });
}

#[test]
fn generated_texts_are_read_as_by_std() {
    let texts = texts::wanted(TEXTS);
    let mut random = Random::new(110);
    let mut bytes = Vec::new();
    for check in CHECKS.iter().cycle().take(texts) {
        bytes.clear();
        texts::push_text(&mut random, &mut bytes);
        let ascii = |byte: &u8| if byte.is_ascii() { char::from(*byte) } else { '?' };
        let text: String = bytes.iter().map(ascii).collect();
        check(&text, &bytes);
    }
    println!("{texts} texts are read as by std");
}

#[test]
fn an_error_of_another_text_has_no_offset() {
    assert_eq!(AtoiSimdError::Overflow(b"256").offset_in(b"25"), None);
    assert_eq!(AtoiSimdError::Invalid64(1, usize::MAX, b"1x").offset_in(b"+1x"), None);
}

#[test]
fn an_error_outlives_its_text() {
    fn is_plain<E: Error + Copy + Eq + Send + Sync + 'static>() {}
    is_plain::<IntError>();
    assert_eq!(size_of::<IntError>(), 16);
}

#[test]
fn messages_ignore_the_options_of_a_format() {
    let message = |text: &[u8]| format!("{:>40}", from_ascii::<u8>(text).unwrap_err());
    assert_eq!(message(b""), "no digit at byte 0");
    assert_eq!(message(b"+12x"), "unexpected byte at byte 3");
    assert_eq!(message(b"256"), "number out of range");
}
