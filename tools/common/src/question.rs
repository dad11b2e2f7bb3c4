//! What is asked: a call, a type and flags.

use crate::integer::Integer;
use std::fmt;

/// Where a call gets the sign of its number from.
#[derive(Clone, Copy, PartialEq, Eq)]
pub enum Sign {
    /// It is taken from the text.
    Taken,
    /// The number is not negative, and the text has no sign.
    Plus,
    /// The number is not positive, and the text has no sign.
    Minus,
}

// Choices of flags, as SKIP_ZEROES and SKIP_PLUS. A flag that a call does not have is off, and the name of a deprecated
// function fixes both.
type Flags = &'static [(bool, bool)];
const ALL: Flags = &[(false, false), (false, true), (true, false), (true, true)];
const ZEROES: Flags = &[(false, false), (true, false)];
const NONE: Flags = &[(false, false)];

macro_rules! calls {
    ($($call:ident $name:literal $sign:ident $flags:expr,)*) => {
        /// One of the ten functions. Their order is the order of their numbers in `tools/compare/exports/ask.rt.in`.
        #[derive(Clone, Copy, PartialEq, Eq)]
        pub enum Call {
            $($call,)*
        }

        const CALLS: [(Call, &str, Sign, Flags); 10] =
            [$((Call::$call, $name, Sign::$sign, $flags),)*];
    };
}

calls! {
    Parse "parse" Taken ALL,
    Pos "parse_pos" Plus ZEROES,
    Neg "parse_neg" Minus ZEROES,
    Prefix "parse_prefix" Taken ALL,
    PrefixPos "parse_prefix_pos" Plus ZEROES,
    PrefixNeg "parse_prefix_neg" Minus ZEROES,
    Skipped "parse_skipped" Taken &[(true, true)],
    Any "parse_any" Taken NONE,
    AnyPos "parse_any_pos" Plus NONE,
    AnyNeg "parse_any_neg" Minus NONE,
}

impl Call {
    /// The call with this number.
    pub fn numbered(number: u32) -> Call {
        CALLS[number as usize].0
    }

    /// Returns where the call gets the sign of its number from.
    pub fn sign(self) -> Sign {
        CALLS[self as usize].2
    }

    /// Says whether the call parses only a prefix of the text. Such a call also returns the length
    /// of that prefix.
    pub fn is_prefix(self) -> bool {
        !matches!(self, Call::Parse | Call::Pos | Call::Neg | Call::Skipped)
    }
}

/// A call at a type, with its flags.
#[derive(Clone, Copy)]
pub struct Question {
    pub call: Call,
    pub integer: Integer,
    pub skip_zeroes: bool,
    pub skip_plus: bool,
}

impl Question {
    /// Every call at every type that has it, with each choice of its flags.
    pub fn all() -> Vec<Question> {
        let mut all = Vec::new();
        for integer in Integer::ALL {
            let is_there = |sign| integer.is_signed() || sign != Sign::Minus;
            for (call, _, _, flags) in CALLS.into_iter().filter(|call| is_there(call.2)) {
                let question =
                    |&(skip_zeroes, skip_plus)| Question { call, integer, skip_zeroes, skip_plus };
                all.extend(flags.iter().map(question));
            }
        }
        all
    }

    /// Returns whether the number has a minus, how many bytes of the text are its sign, and the
    /// body, which is the rest of the text.
    pub fn take_sign<'a>(&self, text: &'a [u8]) -> (bool, usize, &'a [u8]) {
        match (self.call.sign(), text) {
            (Sign::Taken, [b'+', body @ ..]) if self.skip_plus => (false, 1, body),
            (Sign::Taken, [b'-', body @ ..]) if self.integer.is_signed() => (true, 1, body),
            (sign, body) => (sign == Sign::Minus, 0, body),
        }
    }
}

impl fmt::Display for Question {
    fn fmt(&self, f: &mut fmt::Formatter<'_>) -> fmt::Result {
        let zeroes = if self.skip_zeroes { "z" } else { "-" };
        let plus = if self.skip_plus { "p" } else { "-" };
        write!(f, "{} {} {zeroes}{plus}", CALLS[self.call as usize].1, self.integer.name())
    }
}
