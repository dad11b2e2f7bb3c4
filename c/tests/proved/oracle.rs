//! What the Rust of the package returns, as rows of numbers that `compare.cpp` compares with those of C.

use std::slice::{from_raw_parts, from_raw_parts_mut};
use torkettle::column::{Column, ColumnError, FieldError, Fields};
use torkettle::formats::{canonical, json_integer};
use torkettle::{AtoiSimdError, Parse};

/// Numbers in a row.
type Row = Vec<u64>;

/// The members of a `torkettle_error`, of which the first one is the status.
fn members(error: &AtoiSimdError<'_>, text: &[u8]) -> [u64; 6] {
    let (status, bits, count, value, rest) = match *error {
        AtoiSimdError::Empty => (1, 0, 0, 0, text),
        AtoiSimdError::Size(count, rest) => (2, 0, count, 0, rest),
        AtoiSimdError::Overflow(rest) => (3, 0, 0, 0, rest),
        AtoiSimdError::Invalid64(value, count, rest) => (4, 64, count, u128::from(value), rest),
        AtoiSimdError::Invalid128(value, count, rest) => (4, 128, count, value, rest),
    };
    let offset = text.len().wrapping_sub(rest.len()) as u64;
    [status, bits, offset, count as u64, value as u64, (value >> 64) as u64]
}

fn status_of(error: AtoiSimdError<'_>) -> u64 {
    members(&error, b"")[0]
}

/// Adds a status and, for a number, its length and the number in two's complement.
fn push<T: Parse>(row: &mut Row, found: Result<(T, usize), u64>) {
    let (status, count, (minus, magnitude)) = match found {
        Ok((value, count)) => (0, count, value.parts()),
        Err(status) => (status, 0, (false, 0)),
    };
    let bits = if minus { magnitude.wrapping_neg() } else { magnitude };
    row.extend([status, count as u64, bits as u64, (bits >> 64) as u64]);
}

/// Adds a number or a status, and what can be asked of the error: that of no error for a number.
fn push_answer<T: Parse>(row: &mut Row, found: Result<(T, usize), AtoiSimdError<'_>>, text: &[u8]) {
    push(row, found.map_err(status_of));
    let Err(error) = found else { return row.extend([0; 7]) };
    let mut out = [0; 400];
    let length = error.text(&mut out);
    let hashed = |sum: u64, byte: &u8| sum.wrapping_mul(31) + u64::from(*byte);
    row.extend(&members(&error, text)[1..]);
    row.extend([length as u64, out[..length].iter().fold(0, hashed)]);
}

fn parses<T: Parse>(row: &mut Row, text: &[u8], flags: u32) {
    let (zeroes, plus, length) = (flags & 1 != 0, flags & 2 != 0, text.len());
    push_answer(row, T::atoi_simd_parse(text, zeroes, plus).map(|value| (value, length)), text);
    push_answer(row, T::atoi_simd_parse_prefix(text, zeroes, plus), text);
    let whole = T::atoi_simd_parse_pos(text, zeroes).map(|value| (value, length));
    push(row, whole.map_err(status_of));
    push(row, T::atoi_simd_parse_prefix_pos(text, zeroes).map_err(status_of));
    push(row, canonical::<T>(text).map(|value| (value, length)).ok_or(1));
    push(row, json_integer::<T>(text).map(|(value, rest)| (value, length - rest.len())).ok_or(1));
}

fn fields<T: Parse>(row: &mut Row, text: &[u8], all: Fields<'_, T>) {
    let mut fields = all.starting_at(7, 1000);
    loop {
        let (index, place) = Fields::position(&fields);
        match fields.next() {
            Some(Ok(value)) => {
                row.extend([0, index as u64, place as u64]);
                push(row, Ok((value, 0)));
            }
            Some(Err(FieldError { index, place, text: field, cause })) => {
                let start = field.as_ptr() as u64 - text.as_ptr() as u64;
                let (status, length) = (status_of(cause), field.len() as u64);
                row.extend([status, index as u64, place as u64, start, length]);
            }
            None => return row.extend([index as u64, place as u64]),
        }
    }
}

fn column<T: Parse>(row: &mut Row, text: &[u8], separator: u8) {
    for item in Column::<T>::new(text, separator) {
        match item {
            Ok(value) => push(row, Ok((value, 0))),
            Err(ColumnError::Field { index, place, cause }) => {
                row.extend([status_of(cause), index as u64, place as u64]);
            }
            Err(ColumnError::Trailing { index, place }) => {
                row.extend([4, index as u64, place as u64]);
            }
        }
    }
}

fn answer<T: Parse>(row: &mut Row, text: &[u8], question: u32, option: u32) {
    match question {
        0 => parses::<T>(row, text, option),
        1 => fields::<T>(row, text, Fields::new(text, option as u8)),
        2 => fields::<T>(row, text, Fields::lines(text)),
        _ => column::<T>(row, text, option as u8),
    }
}

/// What C calls, as `test.hpp` declares it. It knows a type by its place below.
#[unsafe(no_mangle)]
extern "C" fn oracle(
    kind: u32,
    question: u32,
    option: u32,
    text: *const u8,
    length: usize,
    out: *mut u64,
    size: usize,
) -> usize {
    let answers = [
        answer::<i8>,
        answer::<u8>,
        answer::<i16>,
        answer::<u16>,
        answer::<i32>,
        answer::<u32>,
        answer::<i64>,
        answer::<u64>,
        answer::<i128>,
        answer::<u128>,
    ];
    let (text, out) = unsafe { (from_raw_parts(text, length), from_raw_parts_mut(out, size)) };
    let mut row = Row::new();
    answers[kind as usize](&mut row, text, question, option);
    out[..row.len()].copy_from_slice(&row);
    row.len()
}
