//! Random texts near every boundary: the largest and the smallest values of the types, the lengths
//! at which a window, a block of 16 bytes or the limit on digits ends, leading zeros, signs, bytes
//! after the digits, and bytes that are almost digits.

use crate::random::Random;

const SIGNS: [&[u8]; 9] = [b"-", b"-", b"-", b"+", b"+", b"+-", b"-+", b"--", b"++"];

// The lengths of runs of digits, or of zeros, at which a window, a block or a limit ends, and the
// neighbours of these lengths.
const LENGTHS: [usize; 34] = [
    1, 2, 3, 4, 5, 6, 7, 8, 9, 10, 11, 12, 14, 15, 16, 17, 18, 19, 20, 21, 23, 24, 25, 31, 32, 33,
    37, 38, 39, 40, 41, 48, 49, 64,
];

// How many bits the largest value of a type has. This is the width of the type if it is unsigned,
// and one less if it is signed. All these bits are 1.
const GREATEST_BITS: [u32; 10] = [7, 8, 15, 16, 31, 32, 63, 64, 127, 128];

// The neighbours of the digits and of the signs, bytes that differ from a digit in one bit, bytes
// that carry into the next byte if 6 or 0x46 is added, separators, and the ends of the ASCII and
// UTF-8 ranges.
const SUFFIXES: [u8; 28] = [
    b'/', b':', b';', b'.', b',', b' ', b'-', b'+', b'*', b'e', b'x', b'\n', b'\r', 0, 0x10, 0x70,
    0x7F, 0x80, 0xB0, 0xB9, 0xBF, 0xC0, 0xEF, 0xF0, 0xF9, 0xFA, 0xFE, 0xFF,
];

/// How many texts a test generates: what TORKETTLE_TEXTS says or, without it, this.
pub fn wanted(otherwise: usize) -> usize {
    std::env::var("TORKETTLE_TEXTS")
        .map_or(otherwise, |texts| texts.parse().expect("TORKETTLE_TEXTS is not a number of texts"))
}

/// Calls `check` with every text of up to four of these parts.
pub fn each_of_parts(parts: &[&str], mut check: impl FnMut(&str)) {
    let mut texts = vec![String::new()];
    for _ in 0..4 {
        texts.iter().for_each(|text| check(text));
        let longer = |text: &String| parts.iter().map(|part| format!("{text}{part}")).collect();
        texts = texts.iter().flat_map::<Vec<_>, _>(longer).collect();
    }
    texts.iter().for_each(|text| check(text));
}

/// Appends the next text to `text`, and keeps the bytes that `text` already has.
pub fn push_text(random: &mut Random, text: &mut Vec<u8>) {
    let start = text.len();
    if random.one_in(2) {
        text.extend_from_slice(random.pick(&SIGNS));
    }
    if random.one_in(3) {
        let zeros = random.pick(&LENGTHS);
        text.extend(std::iter::repeat_n(b'0', zeros));
    }
    push_digits(random, text);
    push_suffix(random, text);
    if random.one_in(12) && text.len() > start {
        let place = start + random.below(text.len() - start);
        text[place] = random.bits() as u8;
    }
}

fn push_digits(random: &mut Random, text: &mut Vec<u8>) {
    match random.below(16) {
        0 => {}
        1..=3 => {
            let length = random.pick(&LENGTHS);
            text.extend(std::iter::repeat_n(random.digit(), length));
        }
        4..=8 => {
            for _ in 0..random.pick(&LENGTHS) {
                text.push(random.digit());
            }
        }
        9 => {
            let number = u128::from(random.bits()) << 64 >> random.below(128);
            push_number(random, text, number);
        }
        10 => {
            let power = 10_u128.pow(random.below(39) as u32);
            push_number(random, text, power);
        }
        _ => {
            let bits = random.pick(&GREATEST_BITS);
            push_number(random, text, u128::MAX >> (128 - bits));
        }
    }
}

// Appends the digits of `number` or of a number near it, or the digits of `number` with one digit
// added at the end, removed from the end or changed.
fn push_number(random: &mut Random, text: &mut Vec<u8>, number: u128) {
    let mut digits = number.to_string().into_bytes();
    match random.below(8) {
        0..=2 => (0..=random.below(3)).for_each(|_| step_up(&mut digits)),
        3 => digits = number.saturating_sub(random.below(3) as u128).to_string().into_bytes(),
        4 => digits.push(random.digit()),
        5 => digits.truncate(digits.len() - 1),
        6 => {
            let place = random.below(digits.len());
            digits[place] = random.digit();
        }
        _ => {}
    }
    text.extend_from_slice(&digits);
}

// Adds one to the number that the digits spell, whatever its length.
fn step_up(digits: &mut Vec<u8>) {
    match digits.iter().rposition(|&digit| digit != b'9') {
        Some(place) => {
            digits[place] += 1;
            digits[place + 1..].fill(b'0');
        }
        None => {
            digits.fill(b'0');
            digits.insert(0, b'1');
        }
    }
}

fn push_suffix(random: &mut Random, text: &mut Vec<u8>) {
    if random.one_in(2) {
        return;
    }
    let first = if random.one_in(4) { random.bits() as u8 } else { random.pick(&SUFFIXES) };
    text.push(first);
    for _ in 0..random.below(40) {
        let byte = if random.one_in(2) { random.digit() } else { random.bits() as u8 };
        text.push(byte);
    }
}
