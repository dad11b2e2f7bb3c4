//! `Debug` for the iterators, so that a struct with one can derive it. It has no contract. It shows where an
//! iterator is, but no bytes: there may be many.

use crate::Parse;
use crate::column::{Column, Fields};
use core::fmt;

impl<T: Parse> fmt::Debug for Fields<'_, T> {
    fn fmt(&self, f: &mut fmt::Formatter<'_>) -> fmt::Result {
        f.debug_struct("Fields").field("position", &self.position()).finish_non_exhaustive()
    }
}

impl<T: Parse> fmt::Debug for Column<'_, T> {
    fn fmt(&self, f: &mut fmt::Formatter<'_>) -> fmt::Result {
        let (_, bytes_left) = self.size_hint();
        f.debug_struct("Column")
            .field("bytes_left", &bytes_left.unwrap_or(0))
            .finish_non_exhaustive()
    }
}
