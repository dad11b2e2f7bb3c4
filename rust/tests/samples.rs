//! The code that the pages quote and that no example has.

use std::error::Error;
use std::io::{self, Read};
use std::num::{IntErrorKind, ParseIntError};
use torkettle::column::{Column, ColumnError, FieldError, Fields, Line, LineReader, is_separator};
use torkettle::formats::{digits_then, fixed_width};
use torkettle::{
    AtoiSimdError, IntError, Parse, from_ascii, from_ascii_prefix, parse, parse_neg, parse_pos,
    parse_prefix, parse_prefix_neg, parse_prefix_pos,
};

#[test]
fn numbers() {
    assert_eq!(from_ascii::<i64>(b"-2345"), Ok(-2345));
    assert_eq!(from_ascii_prefix::<u16>(b"80/tcp"), Ok((80, 2)));
    assert_eq!(from_ascii::<u8>(b"256").unwrap_err().to_string(), "number out of range");

    assert_eq!(parse::<i64, false, false>(b"-2345"), Ok(-2345));
    assert_eq!(parse_pos::<u128, true>(b"0012"), Ok(12));
    assert_eq!(parse_neg::<i8, false>(b"128"), Ok(-128));
    assert_eq!(parse_prefix::<u64, false, false>(b"123something_else"), Ok((123, 3)));
    assert_eq!(parse_prefix_pos::<u16, false>(b"80/tcp"), Ok((80, 2)));
    assert_eq!(parse_prefix_neg::<i32, false>(b"12a"), Ok((-12, 2)));

    let (skip_zeroes, skip_plus) = (true, false);
    assert_eq!(u32::atoi_simd_parse(b"0080", skip_zeroes, skip_plus), Ok(80));
}

#[test]
fn errors() {
    // Without SKIP_PLUS, the `+` is not a sign.
    assert_eq!(parse::<i8, false, false>(b"+5"), Err(AtoiSimdError::Empty));
    let text = b"09223372036854775807";
    assert_eq!(parse::<i64, false, false>(text), Err(AtoiSimdError::Size(20, text)));
    assert_eq!(parse_prefix::<u8, true, false>(b"256,1"), Err(AtoiSimdError::Overflow(b"256,1")));
    // The `x` is at offset 7, after digits with the value 12.
    let text = b"0000012x";
    assert_eq!(parse::<u128, true, false>(text), Err(AtoiSimdError::Invalid128(12, 7, text)));

    // Here, the slice in the error leaves out the skipped zeros. With one zero fewer, it keeps them.
    let text = b"0000000000000999x";
    assert_eq!(parse_prefix::<u8, true, false>(text), Err(AtoiSimdError::Overflow(b"999x")));
    let text = b"000000000000999x";
    assert_eq!(parse_prefix::<u8, true, false>(text), Err(AtoiSimdError::Overflow(text)));

    let mut buffer = [0; 400];
    let length = AtoiSimdError::Overflow(b"256").text(&mut buffer);
    assert_eq!(&buffer[..length], b"atoi_simd overflow, input: [32, 35, 36]");
}

#[test]
fn columns() {
    let mut column = Column::<u8>::new(b"1,002,+3,", b',');
    assert_eq!(column.next(), Some(Ok(1)));
    assert_eq!(column.next(), Some(Ok(2)));
    assert_eq!(column.next(), Some(Ok(3)));
    assert_eq!(column.next(), None);

    let mut fields = Fields::<u8>::new(b"1,x2,3", b',');
    let error = FieldError { index: 1, place: 2, text: b"x2", cause: AtoiSimdError::Empty };
    assert_eq!(fields.next(), Some(Ok(1)));
    assert_eq!(fields.next(), Some(Err(error)));
    assert_eq!(fields.next(), Some(Ok(3)));
    assert_eq!(fields.next(), None);
}

fn port(text: &str) -> Result<u16, Box<dyn Error>> {
    let number = text.strip_prefix("port ").ok_or("no port")?;
    Ok(from_ascii(number.as_bytes())?)
}

#[test]
fn errors_that_travel() {
    let message = |text| port(text).unwrap_err().to_string();
    assert_eq!(port("port 8080").unwrap(), 8080);
    assert_eq!(message("port 80x"), "unexpected byte at byte 2");
    assert_eq!(message("port "), "no digit at byte 0");
    assert_eq!(message("port 65536"), "number out of range");
}

fn total(input: &[u8]) -> Result<u64, ColumnError<'_>> {
    let mut total = 0;
    for item in Column::<u32>::new(input, b',') {
        total += u64::from(item?);
    }
    Ok(total)
}

fn total_of_numbers(input: &[u8]) -> Result<u64, FieldError<'_>> {
    let (mut fields, mut numbers, mut total) = (Fields::<u32>::lines(input), [0; 1024], 0);
    loop {
        let read = fields.read(&mut numbers);
        total += numbers[..read].iter().map(|number| u64::from(*number)).sum::<u64>();
        if read < numbers.len() {
            return fields.next().map_or(Ok(total), |item| item.and(Ok(total)));
        }
    }
}

fn total_of_good_lines(input: &[u8]) -> u64 {
    let mut total = 0;
    for item in Fields::<u32>::lines(input) {
        match item {
            Ok(number) => total += u64::from(number),
            Err(error) if error.text.is_empty() => {}
            Err(error) => eprintln!("line {}: \"{}\"", error.line(), error.text.escape_ascii()),
        }
    }
    total
}

fn total_of_file(file: impl Read) -> io::Result<u64> {
    let (mut reader, mut total) = (LineReader::new(file), 0);
    while let Some(numbers) = reader.next_numbers::<u32>()? {
        for item in numbers {
            match item {
                Ok(number) => total += u64::from(number),
                Err(error) => eprintln!("{error}"),
            }
        }
    }
    Ok(total)
}

fn total_between(input: &[u8], separator: u8) -> Option<Result<u64, ColumnError<'_>>> {
    if is_separator(separator) {
        Some(Column::<u32>::new(input, separator).map(|item| item.map(u64::from)).sum())
    } else {
        None
    }
}

fn version(text: &[u8]) -> Option<(u32, u32, u32)> {
    let (major, rest) = digits_then(text, b'.')?;
    let (minor, rest) = digits_then(rest, b'.')?;
    let patch = parse_pos::<u32, true>(rest).ok()?;
    Some((major, minor, patch))
}

fn cells(line: Line<'_>) -> Result<Vec<u32>, String> {
    let cells = Fields::<u32>::new(line.text, b',').starting_at(0, line.place);
    cells.collect::<Result<_, _>>().map_err(|error| format!("line {}, {error}", line.line()))
}

fn total_of_third_column(table: impl Read) -> io::Result<(u64, Vec<(usize, usize)>)> {
    let (mut reader, mut total, mut bad) = (LineReader::new(table), 0, Vec::new());
    while let Some(item) = reader.next_line()? {
        let line = match item {
            Ok(line) => line,
            Err(error) => {
                bad.push((error.line(), error.place()));
                continue;
            }
        };
        let rest = line.text.splitn(3, |byte| *byte == b';').nth(2).unwrap_or_default();
        match parse_prefix::<u32, true, false>(rest) {
            Ok((number, length)) if matches!(rest.get(length), None | Some(b';')) => {
                total += u64::from(number);
            }
            _ => bad.push((line.line(), line.place + line.text.len() - rest.len())),
        }
    }
    Ok((total, bad))
}

#[test]
fn totals() {
    assert_eq!(total(b"1,2,3"), Ok(6));
    let error = total(b"1,,3").map_err(|error| error.to_string());
    assert_eq!(error, Err("field 1 at byte 2 has no digit at its start".to_string()));
    let error = total(b"1,2x").map_err(|error| error.to_string());
    assert_eq!(error, Err("field 1 has an unexpected byte at byte 3".to_string()));
    assert_eq!(total_of_numbers("12\n".repeat(3000).as_bytes()), Ok(36_000));
    assert_eq!(total_of_numbers(b"1\nx\n2").map_err(|error| error.line()), Err(2));
    assert_eq!(total_of_good_lines(b"1\r\nx\r\n\r\n3\r\n"), 4);
    let text = "1\n".repeat((1 << 20) + 1) + "x\r\n7";
    assert_eq!(total_of_file(text.as_bytes()).unwrap(), (1 << 20) + 8);
    assert_eq!(total_between(b"1;2", b';'), Some(Ok(3)));
    assert_eq!(total_between(b"1;2", b'-'), None);
    assert_eq!(version(b"1.22.333"), Some((1, 22, 333)));
    assert_eq!(version(b"1.22.x"), None);
    let line = |text| Line { index: 2, place: 21, text };
    assert_eq!(cells(line(b"640,+480")), Ok(vec![640, 480]));
    let error = cells(line(b"640,4294967296")).unwrap_err();
    assert_eq!(error, "line 3, field 1 at byte 25 is out of range");
    let mut table = b"tea;-3;250\r\nmilk;;90;x\r\nr\xf6sti\n;;9\xff\n".to_vec();
    table.resize(table.len() + (1 << 20) + 1, b'y');
    table.extend(b"\n;;2");
    let bad = vec![(3, 29), (4, 32), (5, 35)];
    assert_eq!(total_of_third_column(&table[..]).unwrap(), (342, bad));
}

#[test]
fn errors_of_columns() {
    // The second field is empty.
    let cause = AtoiSimdError::Empty;
    let error = ColumnError::Field { index: 1, place: 2, cause };
    assert_eq!(Column::<u8>::new(b"1,,2", b',').nth(1), Some(Err(error)));
    // A space is not part of a number, and a column does not skip spaces.
    assert_eq!(Column::<u8>::new(b"1, 2", b',').nth(1), Some(Err(error)));
    // A byte that is not a digit follows the number.
    let error = ColumnError::Trailing { index: 0, place: 2 };
    assert_eq!(Column::<u8>::new(b"12a,3", b',').next(), Some(Err(error)));
    // A line that ends in `\r\n` has the byte `\r` after its number.
    assert_eq!(Column::<u8>::new(b"12\r\n3\r\n", b'\n').next(), Some(Err(error)));
    // A line feed at the end is part of the last field.
    let text = |error: FieldError<'static>| error.text;
    let last = Fields::<u8>::new(b"1,2\n", b',').nth(1);
    assert_eq!(last.map(|item| item.map_err(text)), Some(Err(&b"2\n"[..])));
    // The slice in `cause` extends to the end of the input.
    let cause = AtoiSimdError::Overflow(b"256,1");
    let error = ColumnError::Field { index: 0, place: 0, cause };
    assert_eq!(Column::<u8>::new(b"256,1", b',').next(), Some(Err(error)));
}

#[test]
fn a_buffer_that_ends_within_a_number() {
    // Reads a reply such as `:1234\r\n`, and returns the number and the rest. `Ok(None)` asks for more input.
    fn integer_reply(buffer: &[u8]) -> Result<Option<(i64, &[u8])>, String> {
        let text = match buffer {
            [b':', text @ ..] => text,
            [] => return Ok(None),
            _ => return Err("a reply of another type".into()),
        };
        let (number, length) = match from_ascii_prefix::<i64>(text) {
            Ok(found) => found,
            Err(error) if error.kind() == IntErrorKind::Empty => return Ok(None),
            Err(error) => return Err(error.to_string()),
        };
        match &text[length..] {
            [] | [b'\r'] => Ok(None),
            [b'\r', b'\n', rest @ ..] => Ok(Some((number, rest))),
            _ => Err("a byte that is not part of a number".into()),
        }
    }

    assert_eq!(integer_reply(b":-12").unwrap(), None);
    assert_eq!(integer_reply(b":-1234\r\n+OK").unwrap(), Some((-1234, &b"+OK"[..])));

    let reply = b":-1234\r\n+OK";
    for end in 0..=reply.len() {
        let expected = (end >= 8).then(|| (-1234, &reply[8..end]));
        assert_eq!(integer_reply(&reply[..end]).unwrap(), expected, "{end} bytes");
    }
    let message = |buffer| integer_reply(buffer).unwrap_err();
    assert_eq!(message(b"+OK"), "a reply of another type");
    assert_eq!(message(b":-x"), "no digit at byte 1");
    assert_eq!(message(b":1x"), "a byte that is not part of a number");
    assert_eq!(message(b":1\rx"), "a byte that is not part of a number");
    // More digits do not bring the number back into range, so there is no need to wait for them.
    assert_eq!(message(b":9223372036854775808"), "number out of range");
}

#[test]
fn a_fixed_width_of_a_short_text() {
    // Reads a status such as 404.
    fn status(text: &[u8]) -> Result<Option<(u16, &[u8])>, &'static str> {
        match fixed_width(text, 3) {
            Some(found) => Ok(Some(found)),
            None if text.len() < 3 && text.iter().all(u8::is_ascii_digit) => Ok(None),
            None => Err("no three digits"),
        }
    }

    assert_eq!(status(b"404 Not Found"), Ok(Some((404, &b" Not Found"[..]))));
    assert_eq!(status(b"40"), Ok(None));

    for text in [&b""[..], b"4"] {
        assert_eq!(status(text), Ok(None));
    }
    for text in [&b"x"[..], b"4x", b"40x", b"-40", b" 404"] {
        assert_eq!(status(text), Err("no three digits"));
    }
}

#[test]
fn columns_with_several_spaces_between_them() {
    fn columns(line: &[u8]) -> Result<Vec<u64>, IntError> {
        let words = line.split(u8::is_ascii_whitespace).filter(|word| !word.is_empty());
        words.map(from_ascii).collect()
    }

    assert_eq!(columns(b"  1500   12\t0 "), Ok(vec![1500, 12, 0]));

    assert_eq!(columns(b""), Ok(vec![]));
    assert_eq!(
        columns(b"1  x2").map_err(|error| error.to_string()),
        Err("no digit at byte 0".into())
    );
}

#[test]
fn cells_of_which_some_are_blank() {
    // Returns the cells of a row such as `1, ,-3`. A blank cell is `None`.
    fn cells_with_blanks(row: &[u8]) -> Result<Vec<Option<i64>>, IntError> {
        let cell = |text: &[u8]| match text.trim_ascii() {
            [] => Ok(None),
            text => from_ascii(text).map(Some),
        };
        row.split(|byte| matches!(byte, b',' | b';')).map(cell).collect()
    }

    assert_eq!(cells_with_blanks(b"1, ;-3"), Ok(vec![Some(1), None, Some(-3)]));

    assert_eq!(cells_with_blanks(b"1,2,"), Ok(vec![Some(1), Some(2), None]));
    assert_eq!(cells_with_blanks(b""), Ok(vec![None]));
    for row in [&b"1,x"[..], b"1 2", b"1,-", b"1,\0,2"] {
        assert!(cells_with_blanks(row).is_err());
    }
}

#[test]
fn errors_for_anyhow() {
    // In place of `anyhow::Error`, which has the same conversion.
    #[derive(Debug)]
    struct Anyhow(Box<dyn std::error::Error + Send + Sync + 'static>);

    impl<E: std::error::Error + Send + Sync + 'static> From<E> for Anyhow {
        fn from(error: E) -> Anyhow {
            Anyhow(Box::new(error))
        }
    }

    fn port(text: String) -> Result<u16, Anyhow> {
        Ok(from_ascii(text.as_bytes())?)
    }

    assert_eq!(port("8080".to_string()).unwrap(), 8080);
    let error = port("80x".to_string()).unwrap_err();
    assert_eq!(error.0.to_string(), "unexpected byte at byte 2");
    assert!(error.0.is::<IntError>());
}

#[test]
fn errors_for_serde() {
    // In place of `use serde::de;`
    mod de {
        pub trait Error: Sized {
            fn custom<T: std::fmt::Display>(message: T) -> Self;
        }
    }

    fn retries<E: de::Error>(text: &str) -> Result<u16, E> {
        from_ascii(text.as_bytes()).map_err(E::custom)
    }

    #[derive(Debug, PartialEq)]
    struct Message(String);

    impl de::Error for Message {
        fn custom<T: std::fmt::Display>(message: T) -> Message {
            Message(message.to_string())
        }
    }

    assert_eq!(retries::<Message>("3"), Ok(3));
    assert_eq!(retries::<Message>("3x"), Err(Message("unexpected byte at byte 1".to_string())));
}

#[test]
fn errors_of_std() {
    fn parse_as_std(text: &str) -> Result<u32, ParseIntError> {
        from_ascii(text.as_bytes()).or_else(|_| text.parse())
    }

    for text in ["7", "+7", "", "-", "4294967296", "7 "] {
        assert_eq!(parse_as_std(text), text.parse());
    }
}

#[test]
fn a_text_for_users() {
    fn reason(text: &[u8], error: AtoiSimdError<'_>) -> String {
        match (error, error.offset_in(text)) {
            (AtoiSimdError::Empty, _) => "no digit".to_string(),
            (AtoiSimdError::Invalid64(..) | AtoiSimdError::Invalid128(..), Some(offset)) => {
                format!("unexpected byte at byte {offset}")
            }
            _ => "number out of range".to_string(),
        }
    }

    let text = b"-12x";
    let error = parse::<i32, true, true>(text).unwrap_err();
    assert_eq!(reason(text, error), "unexpected byte at byte 3");

    fn check<T: Parse + std::fmt::Debug>(text: &[u8], expected: &str) {
        let error = parse::<T, true, true>(text).map(drop).unwrap_err();
        assert_eq!(reason(text, error), expected);
    }
    check::<u8>(b"", "no digit");
    check::<u8>(b"-5", "no digit");
    check::<u8>(b"0256", "number out of range");
    check::<u64>(b"99999999999999999999999", "number out of range");
    check::<i128>(b"-00000000000000000000000007 ", "unexpected byte at byte 27");
}

#[test]
fn a_number_at_the_start_by_a_test_for_one_digit() {
    fn number_at(text: &[u8]) -> Result<(u32, usize), AtoiSimdError<'_>> {
        match text {
            [digit @ b'0'..=b'9', next, ..] if !next.is_ascii_digit() => {
                Ok((u32::from(digit - b'0'), 1))
            }
            _ => parse_prefix::<u32, true, true>(text),
        }
    }

    for text in ["7,8", "70,8", "7", "+7,", "4294967295;", "0,", "x", "", "7x"] {
        let text = text.as_bytes();
        assert_eq!(number_at(text), parse_prefix::<u32, true, true>(text));
    }
    assert_eq!(number_at(b"9 "), Ok((9, 1)));
}
