//! The recipes of docs/RECIPES.md, and what they return for more texts than the page shows.

use std::num::{IntErrorKind, NonZero, ParseFloatError, Wrapping};
use torkettle::formats::{canonical, canonical_then, digits_then, fixed_width, strip_byte};
use torkettle::{IntError, from_ascii, from_ascii_prefix, parse_pos};

#[test]
fn the_length_of_an_http_message() {
    // Takes the values of all `Content-Length` fields of a message.
    fn content_length(values: &[&[u8]]) -> Result<Option<u64>, &'static str> {
        let mut found = None;
        for value in values.iter().flat_map(|value| value.split(|byte| *byte == b',')) {
            let length = parse_pos::<u64, true>(value.trim_ascii());
            let length = length.map_err(|_| "it is not a length")?;
            if found.is_some_and(|found| found != length) {
                return Err("two lengths differ");
            }
            found = Some(length);
        }
        Ok(found)
    }

    assert_eq!(content_length(&[b"42", b" 042 , 42"]), Ok(Some(42)));
    assert_eq!(content_length(&[b"42", b"43"]), Err("two lengths differ"));
    assert_eq!(canonical::<u64>(b"042"), None);

    assert_eq!(content_length(&[]), Ok(None));
    assert_eq!(content_length(&[b"0"]), Ok(Some(0)));
    for value in [&b""[..], b"+5", b"-5", b"5 5", b"5,", b"0x5", b"5.0", b"18446744073709551616"] {
        assert_eq!(content_length(&[value]), Err("it is not a length"));
    }
    let (zero, greatest) = (canonical(b"0"), canonical(b"18446744073709551615"));
    assert_eq!((zero, greatest), (Some(0), Some(u64::MAX)));
}

#[test]
fn integers_and_floats() {
    #[derive(Debug, PartialEq)]
    enum Value {
        Integer(i64),
        Float(f64),
    }

    fn value(text: &str) -> Result<Value, ParseFloatError> {
        match from_ascii(text.as_bytes()) {
            Ok(number) => Ok(Value::Integer(number)),
            Err(_) => text.parse().map(Value::Float),
        }
    }

    assert_eq!(value("-15"), Ok(Value::Integer(-15)));
    assert_eq!(value("1.5e3"), Ok(Value::Float(1500.0)));

    for text in
        ["1.5", ".5", "-.5", "1e3", "+1.", "inf", "-Infinity", "9223372036854775808", "-0.0"]
    {
        assert_eq!(value(text), text.parse().map(Value::Float));
    }
    assert!(matches!(value("NaN"), Ok(Value::Float(number)) if number.is_nan()));
    for text in ["", "-", "x", "1,5", "1.5.2", "0x10", " 1"] {
        assert!(value(text).is_err(), "{text:?}");
    }
}

#[test]
fn amounts_with_two_digits_after_the_point() {
    // Returns an amount in cents. Two digits must follow the point.
    fn cents(text: &[u8]) -> Option<i64> {
        let (sign, amount) = match text {
            [b'-', amount @ ..] => (-1, amount),
            _ => (1, text),
        };
        let (whole, rest) = digits_then::<i64>(amount, b'.')?;
        let (cents, rest) = fixed_width::<i64>(rest, 2)?;
        let amount = whole.checked_mul(100)?.checked_add(cents)?;
        rest.is_empty().then_some(sign * amount)
    }

    assert_eq!(cents(b"-0.50"), Some(-50));

    for amount in [0_i64, 1, 99, 100, 1250, -1, -99, -100, -123_456, i64::MAX, -i64::MAX] {
        let sign = if amount < 0 { "-" } else { "" };
        let text = format!("{sign}{}.{:02}", amount.abs() / 100, amount.abs() % 100);
        assert_eq!(cents(text.as_bytes()), Some(amount), "{text}");
    }
    let bad = ["", "-", "1", "1.", ".50", "1.5", "1.505", "--1.00", "-+1.00", "1.-5", " 1.00"];
    for text in bad.into_iter().chain(["92233720368547758.08", "99999999999999999999.00"]) {
        assert_eq!(cents(text.as_bytes()), None, "{text}");
    }
}

#[test]
fn addresses_and_timestamps() {
    fn address(text: &[u8]) -> Option<[u8; 4]> {
        let (first, rest) = canonical_then(text, b'.')?;
        let (second, rest) = canonical_then(rest, b'.')?;
        let (third, rest) = canonical_then(rest, b'.')?;
        Some([first, second, third, canonical(rest)?])
    }

    // Does not check the calendar.
    fn timestamp(text: &[u8]) -> Option<[u16; 6]> {
        let (year, mut rest) = fixed_width(text, 4)?;
        let mut parts = [year, 0, 0, 0, 0, 0];
        for (part, before) in parts[1..].iter_mut().zip(b"--T::") {
            (*part, rest) = fixed_width(strip_byte(rest, *before)?, 2)?;
        }
        (rest == b"Z").then_some(parts)
    }

    assert_eq!(address(b"192.168.0.1"), Some([192, 168, 0, 1]));
    assert_eq!(timestamp(b"2026-11-26T07:30:05Z"), Some([2026, 11, 26, 7, 30, 5]));

    for text in ["", "1.2.3", "1.2.3.4.", "1.2.3.04", "1.2.3.256", "1.2.3.+4", "1..3.4", " 1.2.3.4"]
    {
        assert_eq!(address(text.as_bytes()), None, "{text:?}");
    }
    assert_eq!(timestamp(b"0000-99-99T99:99:99Z"), Some([0, 99, 99, 99, 99, 99]));
    for text in ["", "2026-11-26", "2026-11-26T07:30:05", "2026-11-26T07:30:05ZZ"] {
        assert_eq!(timestamp(text.as_bytes()), None, "{text:?}");
    }
    for text in ["2026-11-26 07:30:05Z", "2026-11-26T07:30:5Z", "2026-11-26T07:30:+5Z"] {
        assert_eq!(timestamp(text.as_bytes()), None, "{text:?}");
    }
}

#[test]
fn units_and_separators() {
    fn bytes(text: &[u8]) -> Option<u64> {
        let (number, length) = from_ascii_prefix::<u64>(text).ok()?;
        let factor = match &text[length..] {
            b"" => 1,
            b"k" => 1000,
            b"KiB" => 1024,
            _ => return None,
        };
        number.checked_mul(factor)
    }

    // Accepts `1__0`, too.
    fn without_separators(text: &[u8]) -> Result<u64, IntError> {
        let digits: Vec<u8> = text.iter().copied().filter(|byte| *byte != b'_').collect();
        from_ascii(&digits)
    }

    assert_eq!(bytes(b"64KiB"), Some(65536));
    assert_eq!(without_separators(b"1_000_000"), Ok(1_000_000));

    for (text, expected) in
        [("10k", 10_000), ("0KiB", 0), ("+7", 7), ("18014398509481983KiB", u64::MAX - 1023)]
    {
        assert_eq!(bytes(text.as_bytes()), Some(expected), "{text}");
    }
    for text in ["", "k", "-1k", "1 k", "1K", "1kk", "1.5k", "18014398509481984KiB"] {
        assert_eq!(bytes(text.as_bytes()), None, "{text:?}");
    }
    assert_eq!(without_separators(b"_1__0_"), Ok(10));
    for text in ["", "_", "1 000", "1_x"] {
        assert!(without_separators(text.as_bytes()).is_err(), "{text:?}");
    }
}

#[test]
fn types_of_std_around_an_integer() {
    fn workers(text: &[u8]) -> Option<NonZero<u32>> {
        from_ascii(text).ok().and_then(NonZero::new)
    }

    fn checksum(text: &[u8]) -> Result<Wrapping<u32>, IntError> {
        from_ascii(text).map(Wrapping)
    }

    assert_eq!(workers(b"8"), NonZero::new(8));

    for text in ["0", "+8", "-1", "x", "", "4294967295", "4294967296"] {
        assert_eq!(workers(text.as_bytes()), text.parse().ok(), "{text:?}");
    }
    assert_eq!(checksum(b"8"), Ok(Wrapping(8)));
}

#[test]
fn the_greatest_number_in_place_of_one_out_of_range() {
    fn seconds(text: &[u8]) -> Result<u32, IntError> {
        let digits = text.strip_prefix(b"+").unwrap_or(text);
        let only_digits = digits.iter().all(u8::is_ascii_digit);
        match from_ascii(text) {
            Err(error) if error.kind() == IntErrorKind::PosOverflow && only_digits => Ok(u32::MAX),
            result => result,
        }
    }

    assert_eq!(seconds(b"99999999999"), Ok(u32::MAX));
    assert!(seconds(b"99999999999s").is_err());

    for text in ["0", "+60", "4294967294", "4294967295", "4294967296", "+99999999999"] {
        let expected = text.parse::<u64>().unwrap().min(u32::MAX.into());
        assert_eq!(seconds(text.as_bytes()).map(u64::from), Ok(expected));
    }
    for text in ["", "-1", "-99999999999", "x", "9 ", "++60", "+99999999999s"] {
        assert!(seconds(text.as_bytes()).is_err(), "{text:?}");
    }
}
