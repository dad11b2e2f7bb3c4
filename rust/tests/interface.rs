//! A program that uses everything that the crate `atoi_simd` 0.18.1 exports. It is a test of the
//! package of that name in `rust/atoi_simd`, and passes with the original too: `.ci/cargo` compiles it with both.

#![allow(deprecated)]

use atoi_simd::{
    AtoiSimdError, Parse, ParseNeg, parse, parse_any, parse_any_neg, parse_any_pos, parse_neg,
    parse_pos, parse_prefix, parse_prefix_neg, parse_prefix_pos, parse_skipped,
};
use std::error::Error;
use std::fmt::Debug;

#[test]
fn each_function_infers_its_type() {
    let port: u16 = parse::<_, false, false>(b"8080").unwrap();
    assert_eq!(port, 8080);
    assert_eq!(parse::<i128, true, true>(b"+0042"), Ok(42));
    assert_eq!(parse_pos::<usize, true>(b"007"), Ok(7));
    assert_eq!(parse_neg::<isize, false>(b"7"), Ok(-7));
    assert_eq!(parse_prefix::<i8, false, false>(b"-128,"), Ok((-128, 4)));
    assert_eq!(parse_prefix_pos::<u64, false>(b"1,2"), Ok((1, 1)));
    assert_eq!(parse_prefix_neg::<i64, true>(b"01,2"), Ok((-1, 2)));
    assert_eq!(parse_skipped::<u32>(b"+007"), Ok(7));
    assert_eq!(parse_any::<i16>(b"-7 "), Ok((-7, 2)));
    assert_eq!(parse_any_pos::<u128>(b"7 "), Ok((7, 1)));
    assert_eq!(parse_any_neg::<i32>(b"7 "), Ok((-7, 1)));
}

fn generic<T: Parse + Copy + PartialEq + Debug>(text: &[u8]) -> Result<T, AtoiSimdError<'_>> {
    let value = parse::<T, true, false>(text)?;
    assert_eq!(parse_prefix::<T, true, false>(text)?, (value, text.len()));
    Ok(value)
}

fn generic_negative<T: ParseNeg>(text: &[u8]) -> Result<T, AtoiSimdError<'_>> {
    parse_neg::<T, true>(text)
}

#[test]
fn generic_code_names_the_traits() {
    assert_eq!(generic(b"255"), Ok(u8::MAX));
    assert_eq!(generic_negative(b"128"), Ok(i8::MIN));
}

#[test]
fn functions_are_values() {
    type Prefix = fn(&[u8]) -> Result<(i64, usize), AtoiSimdError<'_>>;
    let whole: fn(&[u8]) -> Result<u8, AtoiSimdError<'_>> = parse::<u8, false, false>;
    let prefix: Prefix = parse_prefix::<i64, true, true>;
    assert_eq!(whole(b"255"), Ok(255));
    assert_eq!(prefix(b"-5;"), Ok((-5, 2)));
    let values: Result<Vec<u8>, _> = [&b"1"[..], b"2", b"x"].into_iter().map(whole).collect();
    assert_eq!(values, Err(AtoiSimdError::Empty));
}

fn boxed(text: &'static [u8]) -> Result<u32, Box<dyn Error + Send + Sync>> {
    Ok(parse::<u32, false, false>(text)?)
}

#[test]
fn errors_are_errors() {
    assert_eq!(boxed(b"12").unwrap(), 12);
    let error = boxed(b"4294967296").unwrap_err();
    let printed = "atoi_simd overflow, input: [34, 32, 39, 34, 39, 36, 37, 32, 39, 36]";
    assert_eq!(error.to_string(), printed);
    assert!(error.source().is_none());
    assert_eq!(
        AtoiSimdError::Invalid64(12, 2, b"12\x0a").to_string(),
        "atoi_simd invalid at index: 2 it must contain only digits, starting with: 12  input: [31, 32, A]"
    );
    let size = AtoiSimdError::Size(20, &[0; 50]).to_string();
    assert_eq!(size.matches('0').count(), 1 + 48, "48 bytes are shown: {size}");
}

#[test]
fn errors_are_plain_values_in_order() {
    use AtoiSimdError::{Empty, Invalid64, Invalid128, Overflow, Size};
    let mut errors = [
        Invalid128(1, 1, b""),
        Overflow(b"2"),
        Invalid64(1, 1, b""),
        Size(1, b""),
        Overflow(b"10"),
        Empty,
    ];
    errors.sort();
    let sorted = [
        Empty,
        Size(1, b""),
        Overflow(b"10"),
        Overflow(b"2"),
        Invalid64(1, 1, b""),
        Invalid128(1, 1, b""),
    ];
    assert_eq!(errors, sorted);
    let copied = errors[1];
    assert_eq!(copied, errors[1].clone());
    assert_eq!(format!("{:?}", errors[0]), "Empty");
}
