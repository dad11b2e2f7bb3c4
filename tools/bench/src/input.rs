//! What is read while it is timed: a text, the places of slices in it, and the sum of the numbers.

use crate::texts::{ERROR, Place, Texts};
use torkettle_common::integer::Integer;

/// A loop. It takes the address and the size of `Texts`, and returns the sum of the numbers.
pub type Loop = unsafe extern "C" fn(*const Texts, usize) -> u64;

// What follows each number of which a call reads only the start of a text.
const TAIL: &str = ",0123456789012345";

/// A text with its numbers.
pub struct Input {
    pub text: String,
    places: Vec<Place>,
    /// What a loop returns that adds up the numbers.
    pub expected: u64,
    /// How many numbers there are.
    pub count: usize,
}

impl Input {
    /// Numbers with commas between them, which are the slices. If these are starts, each goes on after its number, and
    /// a loop adds the lengths of the numbers, too.
    pub fn new(numbers: &[String], integer: Integer, are_starts: bool) -> Input {
        let mut input = Input::of_text(String::new(), 0, numbers.len());
        for number in numbers {
            let (start, length) = (input.text.len() as u32, number.len());
            input.text += number;
            input.text += if are_starts { TAIL } else { "," };
            let (more, added) = if are_starts { (TAIL.len(), length as u64) } else { (0, 0) };
            input.places.push(Place { start, length: (length + more) as u32 });
            input.expected = input.expected.wrapping_add(bits(number, integer)).wrapping_add(added);
        }
        if !are_starts {
            input.text.pop();
        }
        assert!(input.expected != ERROR && u32::try_from(input.text.len()).is_ok());
        input
    }

    /// A text without slices, and the sum of its numbers.
    pub fn of_text(text: String, expected: u64, count: usize) -> Input {
        Input { text, places: Vec::new(), expected, count }
    }

    fn texts(&self) -> Texts {
        Texts {
            text: self.text.as_ptr(),
            length: self.text.len(),
            places: self.places.as_ptr(),
            count: self.places.len(),
        }
    }

    /// Calls a loop, and returns whether its sum is right.
    pub fn is_right(&self, call: Loop) -> bool {
        // SAFETY: each export takes the address of `Texts`, whose text and places are alive.
        unsafe { call(&self.texts(), size_of::<Texts>()) == self.expected }
    }
}

// The low 64 bits of a number, as the type has them.
fn bits(number: &str, integer: Integer) -> u64 {
    let mask = u64::MAX >> 64_u32.saturating_sub(integer.bits());
    let number = integer.parse(number.as_bytes());
    let (is_negative, magnitude) = number.expect("the type holds the number");
    (if is_negative { magnitude.wrapping_neg() } else { magnitude }) as u64 & mask
}

#[cfg(test)]
mod tests {
    use super::{Input, bits};
    use torkettle_common::integer::Integer;

    #[test]
    fn slices_are_the_numbers() {
        let numbers = ["12", "-3", "456"].map(String::from);
        let column = Input::new(&numbers, Integer::I64, false);
        assert!(column.texts().slices().eq([&b"12"[..], b"-3", b"456"]));
        assert_eq!(column.text, "12,-3,456");
        assert_eq!((column.expected, column.count), (465, 3));
        let starts = Input::new(&numbers, Integer::I64, true);
        assert_eq!(starts.texts().slices().nth(1), Some(&b"-3,0123456789012345"[..]));
        assert_eq!(starts.expected, 465 + 7);
    }

    #[test]
    fn sums_wrap_at_the_size_of_the_type() {
        assert_eq!(bits("-3", Integer::I32), 0xFFFF_FFFD);
        assert_eq!(bits("-3", Integer::I64), u64::MAX - 2);
    }
}
