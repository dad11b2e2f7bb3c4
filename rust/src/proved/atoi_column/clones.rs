/* Made by .ci/translate from crates/atoi_column/src/clones.rt. Do not edit. */ //! A clone of an iterator gives the same items.

use crate::proved::atoi_column::column::Column;
use crate::proved::atoi_column::fields::Fields;
use crate::proved::atoi_core::clones_are_the_same;
use crate::proved::atoi_simd::Parse;

#[inline] fn clones<T: Parse>() {
    clones_are_the_same::<Column<'_, T>>();
    clones_are_the_same::<Fields<'_, T>>();
}
