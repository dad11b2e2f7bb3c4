//! What a call answers, and how an export passes it on.

/// What a call answers. `place` is the number of bytes of the text before the error's slice, and this slice is the rest
/// of the text. `count` is how many bytes a prefix has, and 0 for a whole text. No call should answer `Unlike`: there
/// is no such call, or the error's slice is not the rest of the text.
#[derive(Clone, Copy, PartialEq, Eq, Debug)]
pub enum Answer {
    Value { negative: bool, magnitude: u128, count: usize },
    Empty,
    Size { length: usize, place: usize },
    Overflow { place: usize },
    Invalid64 { number: u128, index: usize, place: usize },
    Invalid128 { number: u128, index: usize, place: usize },
    Unlike(RawAnswer),
}

impl Answer {
    /// Makes the answer for a value. Zero is not negative, even if `minus` is true.
    pub fn value(minus: bool, magnitude: u128, count: usize) -> Answer {
        Answer::Value { negative: minus && magnitude > 0, magnitude, count }
    }
}

/// An answer as `torkettle_answer` writes it. The fields are the fields of `Answer` in
/// `exports/answer.rt.in`.
#[repr(C)]
#[derive(Clone, Copy, PartialEq, Eq, Debug, Default)]
pub struct RawAnswer {
    variant: u32,
    negative: bool,
    ends_the_text: bool,
    low: u64,
    high: u64,
    count: usize,
    place: usize,
}

impl RawAnswer {
    /// What no call should answer.
    pub fn unlike() -> RawAnswer {
        RawAnswer { variant: 6, ..RawAnswer::default() }
    }
}

impl From<RawAnswer> for Answer {
    fn from(raw: RawAnswer) -> Answer {
        let RawAnswer { count, place, .. } = raw;
        let number = u128::from(raw.high) << 64 | u128::from(raw.low);
        match (raw.variant, raw.ends_the_text) {
            (0, false) => Answer::Value { negative: raw.negative, magnitude: number, count },
            (1, false) => Answer::Empty,
            (2, true) => Answer::Size { length: count, place },
            (3, true) => Answer::Overflow { place },
            (4, true) => Answer::Invalid64 { number, index: count, place },
            (5, true) => Answer::Invalid128 { number, index: count, place },
            _ => Answer::Unlike(raw),
        }
    }
}

impl From<Answer> for RawAnswer {
    fn from(answer: Answer) -> RawAnswer {
        let (variant, negative, number, count, place) = match answer {
            Answer::Value { negative, magnitude, count } => (0, negative, magnitude, count, 0),
            Answer::Empty => (1, false, 0, 0, 0),
            Answer::Size { length, place } => (2, false, 0, length, place),
            Answer::Overflow { place } => (3, false, 0, 0, place),
            Answer::Invalid64 { number, index, place } => (4, false, number, index, place),
            Answer::Invalid128 { number, index, place } => (5, false, number, index, place),
            Answer::Unlike(raw) => return raw,
        };
        let (low, high) = (number as u64, (number >> 64) as u64);
        RawAnswer { variant, negative, ends_the_text: variant > 1, low, high, count, place }
    }
}

#[cfg(test)]
mod tests {
    use super::{Answer, RawAnswer};

    #[test]
    fn every_answer_comes_back() {
        let number = u128::MAX - 5;
        for answer in [
            Answer::value(true, number, 7),
            Answer::Empty,
            Answer::Size { length: 17, place: 2 },
            Answer::Overflow { place: 3 },
            Answer::Invalid64 { number, index: 4, place: 1 },
            Answer::Invalid128 { number, index: 4, place: 0 },
            Answer::Unlike(RawAnswer::unlike()),
        ] {
            assert_eq!(Answer::from(RawAnswer::from(answer)), answer);
        }
    }
}
