//! Compares `formats::json_integer` with JSON's grammar, written as a state machine, and with the value
//! that `str::parse` gives to what the grammar accepts.

use std::fmt::Debug;
use std::str::FromStr;
use torkettle::Parse;
use torkettle::formats::json_integer;

// Every number of an edge is read with each of these before it, and each of the others after it.
const STARTS: [&str; 11] = ["", "-", "+", "--", "-+", "0", "00", "-0", "-00", " ", "- "];
const ENDS: [&str; 23] = [
    "", ",", ", 7]", "]", "}", " ", "\n", "\t", "\r\n", ".", ".5", "e", "e3", "E", "E-3", "-", "+",
    "/", ":", "x", "\0", "d", "F",
];

/// Where the grammar is in a number.
#[derive(Clone, Copy)]
enum State {
    Start,
    Minus,
    Zero,
    Digits,
}

// The length of the number that a text begins with, if it has neither a fraction nor an exponent.
fn length_of_integer(text: &[u8]) -> Option<usize> {
    let mut state = State::Start;
    for (length, byte) in text.iter().enumerate() {
        state = match (state, byte) {
            (State::Start, b'-') => State::Minus,
            (State::Start | State::Minus, b'0') => State::Zero,
            (State::Start | State::Minus, b'1'..=b'9') => State::Digits,
            (State::Digits, b'0'..=b'9') => State::Digits,
            (State::Zero, b'0'..=b'9') => return None,
            (State::Zero | State::Digits, b'.' | b'e' | b'E') => return None,
            (State::Zero | State::Digits, _) => return Some(length),
            (State::Start | State::Minus, _) => return None,
        };
    }
    match state {
        State::Zero | State::Digits => Some(text.len()),
        State::Start | State::Minus => None,
    }
}

// The value of a number of JSON. `str::parse` accepts no minus for an unsigned type, where -0 is 0.
fn value<T: FromStr>(number: &[u8]) -> Option<T> {
    let number = std::str::from_utf8(number).expect("a number of JSON is ASCII");
    if number == "-0" { "0".parse().ok() } else { number.parse().ok() }
}

fn check<T: Parse + FromStr + PartialEq + Debug>(text: &[u8]) -> bool {
    let expected = length_of_integer(text)
        .and_then(|length| Some((value::<T>(&text[..length])?, &text[length..])));
    let found = json_integer::<T>(text);
    let name = std::any::type_name::<T>();
    assert_eq!(found, expected, "{name} of \"{}\"", text.escape_ascii());
    if let Some((_, rest)) = found {
        // An empty rest has its place, too.
        assert_eq!(rest.as_ptr_range().end, text.as_ptr_range().end, "\"{}\"", text.escape_ascii());
    }
    found.is_some()
}

// Returns for how many types the text begins with a number.
fn check_each_type(text: &[u8]) -> usize {
    macro_rules! accepted {
        ($($integer:ty)*) => { [$(check::<$integer>(text)),*] };
    }
    let accepted = accepted!(i8 u8 i16 u16 i32 u32 i64 u64 i128 u128 isize usize);
    accepted.iter().filter(|accepted| **accepted).count()
}

// The magnitudes at the ends of the ranges of the types, their neighbours, and numbers of each length.
fn edges() -> Vec<String> {
    let ends = [7, 8, 15, 16, 31, 32, 63, 64, 127].map(|bits| 1_u128 << bits);
    let near_ends = ends.iter().flat_map(|end| [end - 1, *end, end + 1]);
    let small = 0..=12;
    let above = (0..=9).map(|last| format!("34028236692093846346337460743176821145{last}"));
    let lengths = (1..=50).flat_map(|length| b"19".map(|digit| vec![digit; length]));
    let lengths = lengths.map(|digits| String::from_utf8(digits).expect("digits are ASCII"));
    let greatest = [u128::MAX - 1, u128::MAX];
    let numbers = small.chain(near_ends).chain(greatest).map(|number| number.to_string());
    numbers.chain(above).chain(lengths).chain([String::new()]).collect()
}

#[test]
fn edges_are_read_as_the_grammar_says() {
    let mut accepted = 0;
    for number in edges() {
        for start in STARTS {
            for end in ENDS {
                accepted += check_each_type(format!("{start}{number}{end}").as_bytes());
            }
        }
    }
    assert!(accepted > 10_000, "only {accepted} numbers");
}

#[test]
fn every_byte_after_a_number_is_judged() {
    for number in ["0", "-0", "7", "-7", "12", "00", "-", "", "12345678", "1234567812345678"] {
        for byte in 0..=255 {
            check_each_type(&[number.as_bytes(), &[byte]].concat());
            check_each_type(&[number.as_bytes(), &[byte], b"1"].concat());
            check_each_type(&[&[byte], number.as_bytes()].concat());
        }
    }
}
