//! Tables that are reached at virtual addresses.

use crate::addresses::addr::VirtAddrIn;
use crate::addresses::index::PageTableIndex;
use crate::addresses::level_count::LevelCount;
use crate::pages::frame::PhysFrame;
use crate::pages::page::Size4KiB;
use crate::tables::page_table::PageTable;
use crate::tables::phys_memory::{Active, TableMemory};

/// Access to tables at virtual addresses alone, by page walks through the tables as they are at that moment.
pub trait WalkedTables<L: LevelCount> {
    /// Returns the frame at which page walks start.
    ///
    /// # Proved
    ///
    /// ```text
    /// ensures { result ≡ Self.root self.now }
    /// ```
    fn cr3(&self) -> PhysFrame<Size4KiB>;

    /// Returns true if the root's word at an index has `PRESENT`, lacks `HUGE_PAGE` and names the root.
    ///
    /// # Proved
    ///
    /// ```text
    /// ensures { result ≡ has_self_entry (by_number (Self.memory self.now)) (Self.root self.now) index }
    /// ```
    fn self_entry(&self, index: PageTableIndex) -> bool;

    /// Returns the table at which the page walk of a position arrives, if there is one. A position is an address
    /// counted without the gap between the halves.
    ///
    /// Requires that the position is one of the address space.
    ///
    /// # Proved
    ///
    /// ```text
    /// requires { position < position_count L.LEVELS }
    /// ensures { option_copied result ≡ walked_table L.LEVELS (by_number (Self.memory self.now)) (Self.root self.now) position }
    /// ```
    fn table(&self, position: u64) -> Option<&PageTable>;

    /// Lends the table at which the page walk of a position arrives, if there is one.
    ///
    /// Requires that the position is one of the address space.
    ///
    /// # Proved
    ///
    /// ```text
    /// requires { position < position_count L.LEVELS }
    /// ensures* lends { sem 𝓛 (LendsTableIfBy Self.row self.entry result (Self.with_table self.old (shown_frame L.LEVELS (Self.memory self.old) (Self.root self.old) position))) }
    /// ensures value { option_copied_mut result ≡ walked_table L.LEVELS (by_number (Self.memory self.old)) (Self.root self.old) position }
    /// ```
    fn table_mut(&mut self, position: u64) -> Option<&mut PageTable>;
}

impl<'a, L: LevelCount, T: TableMemory> WalkedTables<L> for Active<'a, L, T> {
    fn cr3(&self) -> PhysFrame<Size4KiB> {
        Active::cr3(self)
    }

    fn self_entry(&self, index: PageTableIndex) -> bool {
        Active::self_entry(self, index)
    }

    fn table(&self, position: u64) -> Option<&PageTable> {
        Active::table(self, VirtAddrIn::new_truncate(position))
    }

    fn table_mut(&mut self, position: u64) -> Option<&mut PageTable> {
        Active::table_mut(self, VirtAddrIn::new_truncate(position))
    }
}
