//! Page tables of 512 entries.

use super::{Entries, EntriesMut, PageTableEntry};
use crate::addresses::index::PageTableIndex;
use core::ops::{Index, IndexMut};
use core::{array, fmt};

/// The number of entries of a page table.
const ENTRY_COUNT: usize = 512;

/// A page table of 512 entries. Contracts see it as the list of their words. Intel SDM vol. 3A, "Hierarchical Paging
/// Structures: an Overview".
///
/// An entry is accessed by its index, as in `table[15]`.
///
/// Requires that an index of type `usize` is below 512.
#[derive(Clone)]
#[repr(C, align(4096))]
pub struct PageTable {
    entries: [PageTableEntry; ENTRY_COUNT],
}

impl PageTable {
    /// Creates a table of unused entries: 512 words 0.
    ///
    /// # Proved
    ///
    /// ```text
    /// ensures { result ≡ zero_words }
    /// ```
    #[inline]
    pub const fn new() -> PageTable {
        PageTable { entries: [const { PageTableEntry::new() }; ENTRY_COUNT] }
    }

    /// Makes all entries unused.
    // Mapping a page rarely clears a table, so this is kept out of the common path.
    ///
    /// # Proved
    ///
    /// ```text
    /// ensures { self.new ≡ zero_words }
    /// ```
    #[cold]
    #[inline(never)]
    pub fn zero(&mut self) {
        let entries = &mut self.entries[..];
        for entry in entries.iter_mut() {
            entry.set_unused();
        }
    }

    /// Returns an iterator over the entries, each once, in order of index.
    ///
    /// # Proved
    ///
    /// ```text
    /// ensures words { result ≡ self.now }
    /// ensures size { length self.now ≡ 512 }
    /// ```
    #[inline]
    pub fn iter(&self) -> Entries<'_> {
        Entries::new(&self.entries)
    }

    /// Returns the entries as a slice.
    ///
    /// # Proved
    ///
    /// ```text
    /// ensures words { result.now ≡ self.now }
    /// ensures size { length self.now ≡ 512 }
    /// ```
    #[inline]
    pub fn as_slice(&self) -> &[PageTableEntry] {
        &self.entries
    }

    /// Returns an iterator that lends the entries mutably, each once, in order of index.
    ///
    /// A proof learns in which order the words come, but not what the table is afterwards.
    ///
    /// # Proved
    ///
    /// ```text
    /// ensures words { result ≡ self.old }
    /// ensures size { length self.old ≡ 512 }
    /// ```
    #[inline]
    pub fn iter_mut(&mut self) -> EntriesMut<'_> {
        let entries = &mut self.entries;
        EntriesMut::new(&mut entries[..])
    }

    /// Returns true if all entries are unused.
    ///
    /// # Proved
    ///
    /// ```text
    /// ensures empty { IsTrue result ↔ All (λ word. word ≡ 0) self.now }
    /// ensures size { length self.now ≡ 512 }
    /// ```
    #[inline]
    pub fn is_empty(&self) -> bool {
        self.entries.iter().all(|entry| entry.is_unused())
    }
}

impl Index<usize> for PageTable {
    type Output = PageTableEntry;

    #[inline]
    fn index(&self, index: usize) -> &PageTableEntry {
        &self.entries[index]
    }
}

impl IndexMut<usize> for PageTable {
    #[inline]
    fn index_mut(&mut self, index: usize) -> &mut PageTableEntry {
        &mut self.entries[index]
    }
}

impl Index<PageTableIndex> for PageTable {
    type Output = PageTableEntry;

    #[inline]
    fn index(&self, index: PageTableIndex) -> &PageTableEntry {
        &self.entries[usize::from(index)]
    }
}

impl IndexMut<PageTableIndex> for PageTable {
    #[inline]
    fn index_mut(&mut self, index: PageTableIndex) -> &mut PageTableEntry {
        let i = usize::from(index);
        &mut self.entries[i]
    }
}

impl Default for PageTable {
    #[inline]
    fn default() -> PageTable {
        PageTable::new()
    }
}

impl fmt::Debug for PageTable {
    #[inline]
    fn fmt(&self, f: &mut core::fmt::Formatter<'_>) -> core::fmt::Result {
        f.debug_list().entries(self.entries.iter()).finish()
    }
}
