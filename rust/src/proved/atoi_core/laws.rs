/* Made by .ci/translate from crates/atoi_core/src/laws.rt. Do not edit. */ //! Laws about what the parses return, for the proofs of callers. A law is a function that does nothing
//! and whose contract is a fact; `specs/Laws.antt` says each in words.
// ghost use Rattle.atoi_core.specs.IntType.{int_type};
// ghost use Rattle.atoi_core.specs.Laws.{TextOfValue, AcceptedTexts, AcceptedNumbers, WholeResults, PrefixResults, PrefixesAndRests, NumberThenByte, OneNumber, PrefixBegins, NoneOrTooLarge, DecimalTexts, PrefixIsWhole, PrefixOfCut, PrefixStopsAtRest, RestChangesNothing, SkippingAgrees, OrderAndSuffix, ZerosChangeNothing};

use crate::proved::atoi_core::number::Number;

/// Whatever the flags, `parse` returns each value from its decimal text.
// #[tactic(auto, using(crate::proofs::lemmas::Texts::text_of_value))]
#[inline] pub fn text_of_value<T: Number>()
    // ensures { TextOfValue T.int_type }
{}

/// `parse` with both flags on accepts exactly the texts of the type.
// #[tactic(auto, using(crate::proofs::lemmas::Prefixes::accepted_texts))]
#[inline] pub fn accepted_texts<T: Number>()
    // ensures { AcceptedTexts T.int_type }
{}

/// A whole parse returns only a number that its slice writes; with zeros skipped, each of them.
// #[tactic(auto, using(crate::proofs::lemmas::Prefixes::accepted_numbers))]
#[inline] pub fn accepted_numbers<T: Number>()
    // ensures { AcceptedNumbers T.int_type }
{}

/// What the `Result` of a whole parse says about its slice.
// #[tactic(auto, using(crate::proofs::lemmas::Prefixes::whole_results))]
#[inline] pub fn whole_results<T: Number, const SKIP_ZEROES: bool>()
    // ensures { WholeResults T.int_type T.number SKIP_ZEROES }
{}

/// What the `Result` of a prefix parse says about its slice.
// #[tactic(auto, using(crate::proofs::lemmas::Prefixes::prefix_results))]
#[inline] pub fn prefix_results<T: Number, const SKIP_ZEROES: bool>()
    // ensures { PrefixResults T.int_type T.number SKIP_ZEROES }
{}

/// At most one prefix of a slice writes a number and has no digit after it.
// #[tactic(auto, using(crate::proofs::lemmas::Prefixes::prefixes_and_rests))]
#[inline] pub fn prefixes_and_rests<T: Number>()
    // ensures { PrefixesAndRests T.int_type }
{}

/// A number and a byte that is no digit can be read in one way, which a prefix parse finds.
// #[tactic(auto, using(crate::proofs::lemmas::Numbers::number_then_byte))]
#[inline] pub fn number_then_byte<T: Number>()
    // ensures { NumberThenByte T.int_type }
{}

/// A slice writes at most one number.
// #[tactic(auto, using(crate::proofs::lemmas::Numbers::one_number))]
#[inline] pub fn one_number<T: Number>()
    // ensures { OneNumber T.int_type }
{}

/// A number that a prefix parse returns begins with its sign or a digit.
// #[tactic(auto, using(crate::proofs::lemmas::Numbers::prefix_begins))]
#[inline] pub fn prefix_begins<T: Number>()
    // ensures { PrefixBegins T.int_type }
{}

/// If a prefix parse that skips zeros fails, there is no digit, or the number is too large.
// #[tactic(auto, using(crate::proofs::lemmas::Numbers::none_or_too_large))]
#[inline] pub fn none_or_too_large<T: Number>()
    // ensures { NoneOrTooLarge T.int_type }
{}

/// A prefix parse that reaches the end of its slice agrees with the whole parse.
// #[tactic(auto, using(crate::proofs::lemmas::Prefixes::prefix_is_whole))]
#[inline] pub fn prefix_is_whole<T: Number>()
    // ensures { PrefixIsWhole T.int_type }
{}

/// A prefix parse returns the same for only the prefix that it found.
// #[tactic(auto, using(crate::proofs::lemmas::Prefixes::prefix_of_cut))]
#[inline] pub fn prefix_of_cut<T: Number>()
    // ensures { PrefixOfCut T.int_type }
{}

/// A prefix parse stops at the end of its slice or before a byte that is no digit.
#[inline] pub fn prefix_stops_at_rest<T: Number>()
    // ensures { PrefixStopsAtRest T.int_type }
{}

/// What follows the digits does not change the outcome of a prefix parse.
// #[tactic(auto, using(crate::proofs::lemmas::SameOutcomes::rest_changes_nothing))]
#[inline] pub fn rest_changes_nothing<T: Number>()
    // ensures { RestChangesNothing T.int_type }
{}

/// A parse that succeeds without skipping zeros returns the same with skipping them; of fewer than 16
/// digits, any parse does.
// #[tactic(auto, using(crate::proofs::lemmas::Skipping::skipping_agrees))]
#[inline] pub fn skipping_agrees<T: Number>()
    // ensures { SkippingAgrees T.int_type }
{}

/// Only equal errors are equal in their order, and an error holds a suffix of the parsed slice.
// #[tactic(auto, using(crate::proofs::lemmas::Errors::order_and_suffix))]
#[inline] pub fn order_and_suffix<T: Number>()
    // ensures { OrderAndSuffix T.int_type }
{}

/// The text that `{}` prints is the only one without a sign or a zero that could be left out.
// #[tactic(auto, using(crate::proofs::lemmas::Texts::decimal_texts))]
#[inline] pub fn decimal_texts<T: Number>()
    // ensures { DecimalTexts T.int_type }
{}

/// With zeros skipped, more zeros before the body do not change the outcome.
// #[tactic(auto, using(crate::proofs::lemmas::SameOutcomes::zeros_change_nothing))]
#[inline] pub fn zeros_change_nothing<T: Number>()
    // ensures { ZerosChangeNothing T.int_type }
{}
