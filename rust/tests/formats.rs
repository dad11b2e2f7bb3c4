//! Compares the functions for formats with what std gives for the same bytes.

use std::fmt::{Debug, Display};
use std::panic::catch_unwind;
use std::str::FromStr;
use torkettle::Parse;
use torkettle::formats::{
    canonical, canonical_prefix, canonical_then, digits_between, digits_then, fixed_width, number,
    number_then, strip_byte,
};
use torkettle_common::texts;

// Parts of texts: every text of up to four of them is tried.
const PARTS: [&str; 13] =
    ["0", "7", "12", "255", "128", "+", "-", ".", ",", " ", "x", "00", "18446744073709551616"];

// What `{}` prints, and nothing else.
fn printed<T: FromStr + Display>(text: &str) -> Option<T> {
    text.parse().ok().filter(|value: &T| value.to_string() == text)
}

// What `read` finds before the first `.`, and the offset after it.
fn before_dot<T>(text: &str, read: impl Fn(&str) -> Option<T>) -> Option<(T, usize)> {
    let dot = text.find('.')?;
    Some((read(&text[..dot])?, dot + 1))
}

// Where `rest` starts in `text`, by its address: the bytes alone could be those of another part.
fn place(text: &[u8], rest: &[u8]) -> usize {
    let place = rest.as_ptr().addr().wrapping_sub(text.as_ptr().addr());
    assert_eq!(place.checked_add(rest.len()), Some(text.len()), "a rest of {text:?} is {rest:?}");
    place
}

fn check<T: Parse + FromStr + Display + PartialEq + Debug>(text: &str) {
    let bytes = text.as_bytes();
    let parsed = |text: &str| text.parse::<T>().ok();
    let digits =
        |text: &str| parsed(text).filter(|_| text.starts_with(|c: char| c.is_ascii_digit()));
    let placed = |found: Option<(T, &[u8])>| found.map(|(value, rest)| (value, place(bytes, rest)));
    assert_eq!(number::<T>(bytes), parsed(text), "number of {text:?}");
    let found = placed(number_then(bytes, b'.'));
    assert_eq!(found, before_dot(text, parsed), "number_then of {text:?}");
    let found = placed(digits_then(bytes, b'.'));
    assert_eq!(found, before_dot(text, digits), "digits_then of {text:?}");
    assert_eq!(canonical::<T>(bytes), printed(text), "canonical of {text:?}");
    let found = placed(canonical_then(bytes, b'.'));
    assert_eq!(found, before_dot(text, printed), "canonical_then of {text:?}");
    let sign = usize::from(text.starts_with('-'));
    let end = sign + bytes[sign..].iter().take_while(|byte| byte.is_ascii_digit()).count();
    let expected = printed(&text[..end]).map(|value| (value, end));
    assert_eq!(placed(canonical_prefix(bytes)), expected, "canonical_prefix of {text:?}");
    let count = bytes.iter().take_while(|byte| byte.is_ascii_digit()).count();
    for (least, most) in [(0, 0), (0, 1), (1, 2), (2, 3), (3, 2), (4, 21), (1, usize::MAX)] {
        let front = Some(count.min(most)).filter(|count| *count >= least);
        let expected = front.and_then(|count| Some((parsed(&text[..count])?, count)));
        let found = placed(digits_between(bytes, least, most));
        assert_eq!(found, expected, "{least} to {most} digits of {text:?}");
    }
    for width in [0, 1, 2, 3, 21, usize::MAX] {
        let is_digits = |front: &&str| front.bytes().all(|byte| byte.is_ascii_digit());
        let front = text.get(..width).filter(is_digits);
        let expected = front.and_then(parsed).map(|value| (value, width));
        assert_eq!(placed(fixed_width(bytes, width)), expected, "{width} bytes of {text:?}");
    }
}

#[test]
fn formats_are_those_of_std() {
    texts::each_of_parts(&PARTS, |text| {
        let rest = strip_byte(text.as_bytes(), b'.').map(|rest| place(text.as_bytes(), rest));
        assert_eq!(rest, text.starts_with('.').then_some(1), "strip_byte of {text:?}");
        check::<u8>(text);
        check::<i8>(text);
        check::<u64>(text);
        check::<i128>(text);
    });
}

#[test]
fn no_digit_ends_a_number() {
    for byte in 0..=255_u8 {
        let found = [
            catch_unwind(|| number_then::<u8>(b"1", byte).is_some()),
            catch_unwind(|| digits_then::<u8>(b"1", byte).is_some()),
            catch_unwind(|| canonical_then::<u8>(b"1", byte).is_some()),
        ];
        let are_refused = found.map(|result| result.is_err());
        assert_eq!(are_refused, [byte.is_ascii_digit(); 3], "{byte}");
    }
}
