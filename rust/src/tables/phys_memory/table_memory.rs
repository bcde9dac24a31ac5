//! The trait of memories of page tables, whether these are owned or borrowed.

use super::{FramePlace, PhysMemory};
use crate::tables::page_table::PageTable;

/// A memory of page tables. Contracts see it as a finite map from the numbers of places to tables. The places never change.
///
/// [`PhysMemory`] owns its tables, [`LentMemory`](super::LentMemory) borrows them.
pub trait TableMemory {
    /// Returns the number of places.
    ///
    /// # Proved
    ///
    /// ```text
    /// ensures { result ≡ map.len (tables self.now) }
    /// ```
    fn len(&self) -> usize;

    /// Returns the `n`-th place in increasing order, counted from 0, or `None` if the memory has no more than `n` places.
    ///
    /// # Proved
    ///
    /// ```text
    /// ensures { result ≡ slice_get (map.keys (tables self.now)) n }
    /// ```
    fn place_at(&self, n: usize) -> Option<FramePlace>;

    /// Returns the number of places before a place, or `None` if the memory lacks it.
    ///
    /// # Proved
    ///
    /// ```text
    /// ensures { result ≡ position (eq_by_cmp nat_cmp place) (map.keys (tables self.now)) }
    /// ```
    fn index_of(&self, place: FramePlace) -> Option<usize>;

    /// Returns the table at a place, or `None` if the memory lacks the place.
    ///
    /// # Proved
    ///
    /// ```text
    /// ensures { option_copied result ≡ map.get (tables self.now) place }
    /// ```
    fn table(&self, place: FramePlace) -> Option<&PageTable>;

    /// Lends the table at a place mutably, or returns `None` if the memory lacks the place.
    ///
    /// # Proved
    ///
    /// ```text
    /// ensures* writes_back { sem 𝓛 (LendsTableIfBy Self.row self.entry result (with_table self.old place)) }
    /// ensures value { option_copied_mut result ≡ map.get (tables self.old) place }
    /// ```
    fn table_mut(&mut self, place: FramePlace) -> Option<&mut PageTable>;

    /// Returns the table at a place.
    ///
    /// Requires that the memory has the place.
    ///
    /// # Proved
    ///
    /// ```text
    /// requires { IsSome (map.get (tables self.now) place) }
    /// ensures { map.get (tables self.now) place ≡ Some result.now }
    /// ```
    fn table_at(&self, place: FramePlace) -> &PageTable;

    /// Lends the table at a place mutably.
    ///
    /// Requires that the memory has the place.
    ///
    /// # Proved
    ///
    /// ```text
    /// requires { IsSome (map.get (tables self.old) place) }
    /// ensures* writes_back { sem 𝓛 (LendsTableBy Self.row self.entry result (with_table self.old place)) }
    /// ensures value { map.get (tables self.old) place ≡ Some result.now }
    /// ```
    fn table_at_mut(&mut self, place: FramePlace) -> &mut PageTable;
}

impl TableMemory for PhysMemory {
    #[inline]
    fn len(&self) -> usize {
        PhysMemory::len(self)
    }

    #[inline]
    fn place_at(&self, n: usize) -> Option<FramePlace> {
        PhysMemory::place_at(self, n)
    }

    #[inline]
    fn index_of(&self, place: FramePlace) -> Option<usize> {
        PhysMemory::index_of(self, place)
    }

    #[inline]
    fn table(&self, place: FramePlace) -> Option<&PageTable> {
        PhysMemory::table(self, place)
    }

    #[inline]
    fn table_mut(&mut self, place: FramePlace) -> Option<&mut PageTable> {
        PhysMemory::table_mut(self, place)
    }

    #[inline]
    fn table_at(&self, place: FramePlace) -> &PageTable {
        &self[place]
    }

    #[inline]
    fn table_at_mut(&mut self, place: FramePlace) -> &mut PageTable {
        &mut self[place]
    }
}
