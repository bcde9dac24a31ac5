//! The mapper that reaches the tables in use through the root's entry for itself.

use super::frame_alloc::{FrameAllocator, FrameDeallocator, Removed, Supply};
use super::mapper::{forward_calls, CleanUp, CleanUpBelowRoot, Mapper, RangeMapper, Sink, Translate};
use crate::addresses::addr::{PhysAddr, VirtAddrIn};
use crate::addresses::index::PageTableIndex;
use crate::addresses::level_count::{FiveLevels, FourLevels, LevelCount};
use crate::instructions::tlb;
use crate::mappers::calls::{self, MapRangeErrorIn};
use crate::mappers::recursive_page_table::{InvalidPageTable, Recursive, WalkedTables};
use crate::pages::frame::PhysFrame;
use crate::pages::page::{PageIn, PageSize, Size4KiB};
use crate::pages::range::BlockRangeInclusive;
use crate::registers::control::Cr3;
use crate::tables::errors::{FlagUpdateError, MapToError, TranslateError, UnmapError};
use crate::tables::page_table::{PageTable, PageTableFlags};
use crate::tables::tokens::{MapperFlushAll, MapperFlushIn, MapperFlushRangeIn};
use crate::tables::translation::TranslateResult;
use core::arch::asm;
use core::fmt;
use core::marker::PhantomData;

/// The tables that the processor reaches, each at its window, for the proved code.
struct Windows<'a> {
    root: PhysFrame,
    table: PhantomData<&'a mut PageTable>,
}

/// Returns the address of a table, by a position: an address that is counted without the gap between the halves.
#[inline]
fn pointer<L: LevelCount>(position: u64) -> *mut PageTable {
    let mut address = VirtAddrIn::<L>::new_truncate(position).as_u64();
    // SAFETY: it does nothing, but the compiler doesn't know this. So what was written before is written now: it may be the entry by
    // which the table is here.
    unsafe { asm!("/* {} */", inout(reg) address, options(nostack, preserves_flags)) };
    address as *mut PageTable
}

impl<L: LevelCount> WalkedTables<L> for Windows<'_> {
    #[inline]
    fn cr3(&self) -> PhysFrame {
        self.root
    }

    fn self_entry(&self, _index: PageTableIndex) -> bool {
        // `new` and `new_unchecked` have seen to it.
        true
    }

    #[inline]
    fn table(&self, position: u64) -> Option<&PageTable> {
        // SAFETY: the position is that of the window of a table that entries lead to. The processor follows these entries as well, so
        // the table is there, and is borrowed with the mapper.
        Some(unsafe { &*pointer::<L>(position) })
    }

    #[inline]
    fn table_mut(&mut self, position: u64) -> Option<&mut PageTable> {
        // SAFETY: as above, and the mapper is borrowed mutably.
        Some(unsafe { &mut *pointer::<L>(position) })
    }
}

/// A mapper for the `L` levels of tables that the processor uses, which reaches each at its window: the page whose walk goes through
/// the root's entry for itself, the recursive entry.
///
/// The entry of a new table gets `PRESENT` and `WRITABLE` in addition to the parent flags, since the table can be reached only so. It is
/// cleared after that. So the processor may walk a table with the words that the allocator left in its frame, until it is cleared: where
/// this matters, frames are cleared before they are handed out.
///
/// Clean ups, and changes to pages of 2 MiB and 1 GiB, flush everything from the TLB of this processor, as
/// [`flush_after`](crate::flushing::flush_after) says, so that later calls find the tables at their windows. Without this flush after a clean up,
/// a kernel in QEMU faults. In the crate `x86_64` it is left to the kernel. After a `set_flags_..` call the kernel flushes everything.
///
/// It makes no address spaces, as [`OffsetPageTable`](super::structures::paging::OffsetPageTable) does: a root that isn't in use has no
/// window.
pub struct RecursivePageTableIn<'a, L: LevelCount> {
    tables: Recursive<Windows<'a>, L>,
}

/// A mapper for the four levels of tables that the processor uses, which reaches each at its window.
pub type RecursivePageTable<'a> = RecursivePageTableIn<'a, FourLevels>;

/// A mapper for the five levels of tables that the processor uses, which reaches each at its window.
pub type RecursivePageTable57<'a> = RecursivePageTableIn<'a, FiveLevels>;

impl<'a, L: LevelCount> RecursivePageTableIn<'a, L> {
    /// Creates a mapper, given the root, the table of level four or five, at its window.
    ///
    /// It is a safe function, as in the crate `x86_64`. So whoever creates the reference, by unsafe code, sees to what
    /// [`new_unchecked`](Self::new_unchecked) asks for, as far as it isn't tested here.
    ///
    /// # Errors
    ///
    /// - `NotRecursive` if the indices of the reference's address, one for each level, aren't equal.
    /// - `NotActive` if the table's entry at this index doesn't name the frame in CR3.
    #[inline]
    pub fn new(table: &'a mut PageTable) -> Result<Self, InvalidPageTable> {
        let address = VirtAddrIn::<L>::checked_new(&raw const *table as u64).ok_or(InvalidPageTable::NotRecursive)?;
        let index = address.root_index();
        if (1..L::LEVELS).any(|level| address.table_index(level) != index) {
            return Err(InvalidPageTable::NotRecursive);
        }
        if table[index].frame() != Ok(Cr3::read().0) {
            return Err(InvalidPageTable::NotActive);
        }
        // SAFETY: it is tested that the table is the root of those in use, at the window of this index. As for the rest, the reference
        // stands for it.
        Ok(unsafe { Self::new_unchecked(table, index) })
    }

    /// Creates a mapper, given the root, the table of level four or five, at its window, and the index of its recursive entry.
    ///
    /// # Safety
    ///
    /// - The processor uses the hierarchy with this root, with as many levels, as long as the mapper lives, and the root's entry at the
    ///   index names it.
    /// - This entry and all others that name tables have `PRESENT` and `WRITABLE`. Other mappers make tables without `WRITABLE`, if the
    ///   flags lack it; through the window of such a table nothing can be written.
    /// - The hierarchy is valid but for this entry: no two others name one table, none names the root, and entries above level one that
    ///   aren't 0 name tables or, at levels three and two, map huge pages.
    /// - Nothing else reads or writes its tables meanwhile but processors that walk them, and between its calls mappers of spaces that
    ///   share some of them ([`new_space`](super::structures::paging::mapper::OffsetPageTableIn::new_space)).
    /// - The mapper isn't lent mutably to code that isn't to be trusted with the address space: there are safe methods that take pages
    ///   away ([`unmap`](Mapper::unmap)) or lend the root's table (`level_4_table_mut`), as in the crate `x86_64`.
    /// - The index isn't 511, since the last byte of the address space is in no Rust object.
    #[inline]
    pub unsafe fn new_unchecked(table: &'a mut PageTable, recursive_index: PageTableIndex) -> Self {
        let root = PhysFrame::containing_address(table[recursive_index].addr());
        let windows = Windows { root, table: PhantomData };
        // The tables are reached by numbers from here on.
        (table as *mut PageTable).expose_provenance();
        RecursivePageTableIn { tables: Recursive::new_unchecked(windows, recursive_index) }
    }
}

impl RecursivePageTable<'_> {
    /// Returns the table of level four.
    #[inline]
    pub fn level_4_table(&self) -> &PageTable {
        self.tables.level_4_table()
    }

    /// Lends the table of level four, to be changed. The hierarchy must be valid again when the mapper is used next.
    #[inline]
    pub fn level_4_table_mut(&mut self) -> &mut PageTable {
        self.tables.level_4_table_mut()
    }
}

impl RecursivePageTable57<'_> {
    /// Returns the table of level five.
    #[inline]
    pub fn level_5_table(&self) -> &PageTable {
        self.tables.level_5_table()
    }

    /// Lends the table of level five, to be changed.
    ///
    /// # Safety
    ///
    /// What is changed suits a processor that uses the tables, and the hierarchy is valid again when the mapper is used next.
    #[inline]
    pub unsafe fn level_5_table_mut(&mut self) -> &mut PageTable {
        self.tables.level_5_table_mut()
    }

    /// Gives the entry of level five on the path to a page these flags.
    ///
    /// # Errors
    ///
    /// `PageNotMapped` if it isn't used.
    ///
    /// # Safety
    ///
    /// As for [`set_flags_p4_entry`](Mapper::set_flags_p4_entry).
    #[inline]
    pub unsafe fn set_flags_p5_entry<S: PageSize>(
        &mut self,
        page: PageIn<S, FiveLevels>,
        flags: PageTableFlags,
    ) -> Result<MapperFlushAll, FlagUpdateError> {
        calls::set_table_flags(&mut self.tables, page, 5, flags)
    }
}

impl<L: LevelCount> fmt::Debug for RecursivePageTableIn<'_, L> {
    fn fmt(&self, f: &mut fmt::Formatter<'_>) -> fmt::Result {
        f.debug_struct("RecursivePageTable").finish_non_exhaustive()
    }
}

// A window shows what was there until the TLB is flushed. So clean ups flush everything, and changes to huge pages, whose words a processor
// may have taken for those of a table.
forward_calls! { ['a, L: LevelCount] RecursivePageTableIn<'a, L>, L, tables, { tlb::flush_all() } }
