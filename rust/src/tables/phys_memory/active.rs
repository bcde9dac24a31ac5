//! A memory whose tables can be accessed only at virtual addresses.

use super::hierarchy_view::has_self_entry;
use super::walk::page_walk;
use super::{FramePlace, IdentityMapping, PhysMemory, TableMemory};
use crate::addresses::addr::{PhysAddr, VirtAddrIn};
use crate::addresses::index::PageTableIndex;
use crate::addresses::level_count::{FiveLevels, FourLevels, LevelCount};
use crate::pages::frame::PhysFrame;
use crate::pages::page::{PageSize, Size4KiB};
use crate::tables::page_table::PageTable;
use core::marker::PhantomData;

/// A borrowed memory, with the frame in the register CR3, at which the processor starts its page walks.
///
/// A table can be accessed only at a virtual address: where the page walk of the address arrives through the tables as they
/// are at that moment. No call accesses a table by its frame, and none returns the memory. When the loan ends, the memory
/// has the words that it had last. Intel SDM vol. 3A, "Linear-Address Translation with 4-Level Paging and 5-Level Paging".
pub struct Active<'a, L, T = PhysMemory> {
    memory: &'a mut T,
    cr3: u64,
    levels: PhantomData<L>,
}

/// An active memory with four levels of page tables.
pub type ActiveMemory<'a, T = PhysMemory> = Active<'a, FourLevels, T>;

/// An active memory with five levels of page tables.
pub type ActiveMemory57<'a, T = PhysMemory> = Active<'a, FiveLevels, T>;

impl<'a, L: LevelCount, T: TableMemory> Active<'a, L, T> {
    /// Creates an active memory with the given frame in CR3. No word changes.
    ///
    /// # Proved
    ///
    /// ```text
    /// ensures lent { lent result ≡ memory.entry.ghost_name }
    /// ensures memory { memory_of result ≡ memory.old }
    /// ensures cr3 { cr3_of result ≡ cr3 }
    /// ```
    pub fn new(memory: &'a mut T, cr3: PhysFrame<Size4KiB>) -> Self {
        let cr3 = cr3.start_address().as_u64();
        Active { memory, cr3, levels: PhantomData }
    }

    /// Returns the frame in CR3.
    ///
    /// # Proved
    ///
    /// ```text
    /// ensures { result ≡ cr3_of self.now }
    /// ```
    pub fn cr3(&self) -> PhysFrame<Size4KiB> {
        PhysFrame::containing_address(PhysAddr::new_truncate(self.cr3))
    }

    /// Returns true if the table in CR3's frame is in the memory, and [`frame`](crate::tables::page_table::PageTableEntry::frame) of
    /// its entry at the index is CR3's frame: the entry has `PRESENT`, lacks `HUGE_PAGE` and names that frame.
    ///
    /// # Proved
    ///
    /// ```text
    /// ensures { result ≡ has_self_entry (active_words T.tables self.now) (cr3_of self.now) index }
    /// ```
    pub fn self_entry(&self, index: PageTableIndex) -> bool {
        has_self_entry(self.memory, &IdentityMapping, self.cr3(), index)
    }

    /// Returns the table at an address, or `None` if the page walk of the address from CR3 arrives nowhere, not at a multiple
    /// of 4096, or at no table in the memory. It may arrive inside a huge page.
    ///
    /// # Proved
    ///
    /// ```text
    /// ensures { option_copied result ≡ walked_table L.LEVELS (active_words T.tables self.now) (cr3_of self.now) addr }
    /// ```
    pub fn table(&self, addr: VirtAddrIn<L>) -> Option<&PageTable> {
        let frame = self.arrive(addr)?;
        self.memory.table(place_of(frame))
    }

    /// Lends the table at an address mutably, or returns `None` if [`table`](Active::table) does. All other tables are
    /// unchanged. What is written may change where later walks arrive.
    ///
    /// # Proved
    ///
    /// ```text
    /// ensures* writes_back { sem 𝓛 (LendsWalked L.row T.row ⟦<T as TableMemory>⟧ L.LEVELS self.entry addr result) }
    /// ensures value { option_copied_mut result ≡ walked_table L.LEVELS (active_words T.tables self.old) (cr3_of self.old) addr }
    /// ```
    pub fn table_mut(&mut self, addr: VirtAddrIn<L>) -> Option<&mut PageTable> {
        match self.arrive(addr) {
            Some(frame) => self.table_in(frame),
            None => None,
        }
    }

    /// Returns the frame that starts where the page walk of an address arrives, if there is one.
    fn arrive(&self, addr: VirtAddrIn<L>) -> Option<PhysFrame<Size4KiB>> {
        let walked = page_walk(self.memory, &IdentityMapping, self.cr3(), addr)?;
        PhysFrame::from_start_address(walked.address).ok()
    }

    /// Lends the table in a frame mutably, if the memory has it.
    fn table_in(&mut self, frame: PhysFrame<Size4KiB>) -> Option<&mut PageTable> {
        let place = place_of(frame);
        self.memory.table_mut(place)
    }
}

impl<'a, L> Active<'a, L> {
    /// Returns the active memory if `kept` is true, else ends the loan with no word changed.
    ///
    /// # Proved
    ///
    /// ```text
    /// ensures* unchanged { sem 𝓛 (RestsUnlessKept self.entry result) }
    /// ensures value { result ≡ kept_of self.entry kept }
    /// ```
    pub fn kept_if(self, kept: bool) -> Option<Self> {
        let Active { memory, cr3, levels: _ } = self;
        if kept {
            return Some(Active { memory, cr3, levels: PhantomData });
        }
        None
    }
}

/// Returns the place of a frame (the number of its table in the memory), which is the frame's number.
#[inline]
fn place_of(frame: PhysFrame<Size4KiB>) -> FramePlace {
    FramePlace::new(frame.start_address().as_u64() / Size4KiB::SIZE)
}
