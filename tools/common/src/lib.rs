//! What the tools share: how they read arguments, a cache outside the repository, and what builds the Cargo package and
//! the original there. What `compare` and the package's tests share: random texts, and what each call should answer.

pub mod answer;
pub mod arguments;
pub mod cache;
pub mod cargo;
pub mod clock;
pub mod command;
pub mod integer;
pub mod object;
pub mod original;
pub mod question;
pub mod random;
pub mod rules;
pub mod standard;
pub mod texts;

/// One of the two forms in which the library has each function.
#[derive(Clone, Copy, PartialEq, Eq)]
pub enum Form {
    /// `atoi_simd`, on words.
    Words,
    /// `atoi_simd::lanes`.
    Lanes,
}

impl Form {
    pub const BOTH: [Form; 2] = [Form::Words, Form::Lanes];

    /// What the form is called in tables.
    pub fn name(self) -> &'static str {
        match self {
            Form::Words => "words",
            Form::Lanes => "lanes",
        }
    }
}
