/* Made by .ci/translate from crates/atoi_column/src/laws.rt. Do not edit. */ //! Laws about columns and fields, for the proofs of callers; `specs/Laws.antt` says each in words.
// ghost use Rattle.atoi_column.specs.Laws.{TextsAndItems, ItemsDecide, ItemsInTurn, FirstField, FieldsDecide, ErrorsArePlaced, ColumnStopsAtError, PiecesInTurn, FieldsArePrefixes, ResultsTellFields};

use crate::proved::atoi_core::Number;
use crate::proved::atoi_core::laws::{
    accepted_numbers, accepted_texts, prefix_is_whole, prefix_of_cut, prefixes_and_rests,
    rest_changes_nothing,
};

/// The items of an input are the numbers of its fields, up to the first that is no text of the type.
// #[tactic(auto, using(crate::proofs::lemmas::Texts::texts_and_items))]
#[inline] pub fn texts_and_items<T: Number>()
    // ensures { TextsAndItems T.int_type }
{
    accepted_texts::<T>();
    accepted_numbers::<T>();
}

/// What the items of a column say about its fields.
// #[tactic(auto, using(crate::proofs::lemmas::Decides::items_decide))]
#[inline] pub fn items_decide<T: Number>()
    // ensures { ItemsDecide T.int_type }
{
    texts_and_items::<T>();
}

/// How the invariant `HaveRead` of a loop over a column is kept.
// #[tactic(auto, using(crate::proofs::lemmas::Turns::items_in_turn))]
#[inline] pub fn items_in_turn()
    // ensures { ItemsInTurn }
{}

/// The first field of an input ends before its first separator.
// #[tactic(auto, using(crate::proofs::lemmas::Fields::fields_of_first))]
#[inline] pub fn first_field()
    // ensures { FirstField }
{}

/// What the items of `Fields` say about the fields and the lines of an input.
// #[tactic(auto, using(crate::proofs::lemmas::FieldsDecide::fields_decide))]
#[inline] pub fn fields_decide<T: Number>()
    // ensures { FieldsDecide T.int_type }
{
    accepted_texts::<T>();
    accepted_numbers::<T>();
}

/// What the index and the place in an error of `Fields` say.
// #[tactic(auto, using(crate::proofs::lemmas::FieldPlaces::errors_are_placed))]
#[inline] pub fn errors_are_placed<T: Number>()
    // ensures { ErrorsArePlaced T.int_type }
{}

/// The items of a column are the items of `Fields` up to the first error.
// #[tactic(auto, using(crate::proofs::lemmas::FieldsDecide::column_stops_at_error))]
#[inline] pub fn column_stops_at_error<T: Number>()
    // ensures { ColumnStopsAtError T.int_type }
{}

/// The items of an input that is cut after a separator, and where an iterator ends.
// #[tactic(auto, using(crate::proofs::lemmas::Pieces::pieces_in_turn))]
#[inline] pub fn pieces_in_turn<T: Number>()
    // ensures { PiecesInTurn T.int_type }
{}

// A field is accepted exactly if the number at its start ends where the field ends.
// #[tactic(auto, using(crate::proofs::lemmas::Prefixes::fields_are_prefixes))]
#[inline] pub(crate) fn fields_are_prefixes<T: Number>()
    // ensures { FieldsArePrefixes T.int_type }
{
    prefix_is_whole::<T>();
    prefix_of_cut::<T>();
    rest_changes_nothing::<T>();
}

// The same of a field at which `parse_prefix` was called, from its contract.
// #[tactic(auto, using(crate::proofs::lemmas::Prefixes::results_tell_fields))]
#[inline] pub(crate) fn results_tell_fields<T: Number>()
    // ensures { ResultsTellFields T.int_type T.number }
{
    accepted_numbers::<T>();
    prefixes_and_rests::<T>();
    prefix_of_cut::<T>();
    rest_changes_nothing::<T>();
}
