/* Made by .ci/translate from crates/atoi_formats/src/expected_byte.rt. Do not edit. */ //! Steps over one expected byte.
// ghost use Rattle.std.specs.Prelude.{◌≡◌, ℕ, List, ◌∷◌, IfSome, IfNone};

/// Returns what follows `byte` if `text` begins with it, and otherwise `None`.
///
/// ```
/// use torkettle::formats::strip_byte;
///
/// assert_eq!(strip_byte(b":80", b':'), Some(&b"80"[..]));
/// assert_eq!(strip_byte(b"80", b':'), None);
/// ```
///
/// See the [guide](crate::guide#read-other-formats).
///
/// **Proved:** the result is what follows, or `None` if and only if `text` does not begin with `byte`
/// (see the [specification](crate::specification#formats-formatsantt-in-atoi_formats)).
#[inline]
pub fn strip_byte(text: &[u8], byte: u8) -> Option<&[u8]>
    // ensures some { IfSome result (λ rest. text.now ≡ byte ∷ rest.now) }
    // ensures none { IfNone result ((rest : List ℕ) → ¬ (text.now ≡ byte ∷ rest)) }
{
    match text {
        [first, rest @ ..] if *first == byte => Some(rest),
        _ => None,
    }
}
