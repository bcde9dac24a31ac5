//! The mapper that finds page tables by a frame mapping.

use crate::addresses::addr::{VirtAddr, VirtAddr57};
use crate::addresses::index::PageTableIndex;
use crate::addresses::level_count::{FiveLevels, FourLevels, LevelCount};
use crate::bitflags::Flags;
use crate::mappers::walk::TableAccess;
use crate::pages::frame::PhysFrame;
use crate::pages::page::{PageSize, Size4KiB};
use crate::support::AllocError;
use crate::tables::page_table::{PageTable, PageTableFlags};
use crate::tables::page_tables::{Tables, TablesIn};
use crate::tables::phys_memory::{
    is_valid_hierarchy, is_valid_hierarchy_57, FramePlace, PageTableFrameMapping, PhysMemory, TableMemory,
};
use core::marker::PhantomData;

/// A mapper for a hierarchy of `L` levels of page tables, which it finds in a memory by a frame mapping.
///
/// It borrows the memory until it is dropped. Its hierarchy has no recursive index. It reaches a table by its frame, so
/// a map clears a new table before it writes the entry that names it. A new table's entry gets the parent flags alone.
pub struct Direct<'a, P: PageTableFrameMapping, L: LevelCount, T: TableMemory = PhysMemory> {
    memory: &'a mut T,
    root: PhysFrame<Size4KiB>,
    mapping: P,
    levels: PhantomData<L>,
}

/// A frame mapping given by the caller.
///
/// It is a type of its own to keep apart [`MappedPageTable::new`] and [`OffsetPageTable::new`], which take different
/// arguments.
///
/// [`OffsetPageTable::new`]: crate::mappers::offset_page_table::OffsetPageTable
pub struct GivenMapping<P> {
    mapping: P,
}

impl<P: PageTableFrameMapping> PageTableFrameMapping for GivenMapping<P> {
    #[inline]
    fn frame_to_pointer(&self, frame: PhysFrame<Size4KiB>) -> FramePlace {
        self.mapping.frame_to_pointer(frame)
    }

    #[inline]
    fn covers(&self, frame: PhysFrame<Size4KiB>) -> bool {
        self.mapping.covers(frame)
    }
}

/// A mapper for a hierarchy of any number of levels of page tables, which finds them by a frame mapping that the caller
/// gives.
pub type MappedPageTableIn<'a, P, L, T = PhysMemory> = Direct<'a, GivenMapping<P>, L, T>;

/// A [`MappedPageTableIn`] with four levels of page tables.
pub type MappedPageTable<'a, P, T = PhysMemory> = MappedPageTableIn<'a, P, FourLevels, T>;

/// A [`MappedPageTableIn`] with five levels of page tables.
pub type MappedPageTable57<'a, P, T = PhysMemory> = MappedPageTableIn<'a, P, FiveLevels, T>;

impl<'a, P: PageTableFrameMapping, L: LevelCount, T: TableMemory> Direct<'a, P, L, T> {
    /// Creates a mapper for the hierarchy with this root, in a memory whose frames lie where the mapping says.
    ///
    /// Requires that the hierarchy is valid, which
    /// [`is_valid_hierarchy`](crate::tables::phys_memory::is_valid_hierarchy), or
    /// [`is_valid_hierarchy_57`](crate::tables::phys_memory::is_valid_hierarchy_57) for five levels, tests with the
    /// same mapping.
    #[inline]
    pub(crate) fn over(memory: &'a mut T, root: PhysFrame<Size4KiB>, mapping: P) -> Self {
        Direct { memory, root, mapping, levels: PhantomData }
    }

    /// Returns the frame mapping.
    #[inline]
    pub(crate) fn mapping(&self) -> &P {
        &self.mapping
    }
}

impl<'a, P: PageTableFrameMapping, L: LevelCount, T: TableMemory> Direct<'a, GivenMapping<P>, L, T> {
    /// Creates a mapper for the hierarchy with this root, in a memory whose frames lie where the mapping says.
    ///
    /// Requires that the hierarchy is valid, which
    /// [`is_valid_hierarchy`](crate::tables::phys_memory::is_valid_hierarchy), or
    /// [`is_valid_hierarchy_57`](crate::tables::phys_memory::is_valid_hierarchy_57) for five levels, tests with the
    /// same mapping.
    ///
    /// # Proved
    ///
    /// ```text
    /// requires { Valid (direct_at L.LEVELS (P.places mapping) root laid_in T.tables memory.old) }
    /// ensures lent { (⟦<Self as Tables>⟧.hierarchy result).lent ≡ ((memory.entry.ghost_name, T.lent memory.old), mapping) }
    /// ensures memory { (⟦<Self as Tables>⟧.hierarchy result).memory ≡ T.tables memory.old }
    /// ensures layout { (⟦<Self as Tables>⟧.hierarchy result).layout ≡ direct_at L.LEVELS (P.places mapping) root }
    /// ```
    #[inline]
    pub fn new(memory: &'a mut T, root: PhysFrame<Size4KiB>, mapping: P) -> Self {
        Direct::over(memory, root, GivenMapping { mapping })
    }

    /// Returns the frame mapping that the mapper was created with.
    ///
    /// # Proved
    ///
    /// ```text
    /// ensures mapping { result.now ≡ (⟦<Self as Tables>⟧.hierarchy self.now).lent.1 }
    /// ensures places { P.places result.now ≡ (⟦<Self as Tables>⟧.hierarchy self.now).layout.places }
    /// ```
    #[inline]
    pub fn page_table_frame_mapping(&self) -> &P {
        &self.mapping.mapping
    }
}

impl<'a, P: PageTableFrameMapping, T: TableMemory> Direct<'a, P, FourLevels, T> {
    /// Returns the table of level four, which is in the root's frame.
    ///
    /// # Proved
    ///
    /// ```text
    /// ensures { root_table (⟦<Self as Tables>⟧.hierarchy self.now) ≡ Some result.now }
    /// ```
    #[inline]
    pub fn level_4_table(&self) -> &PageTable {
        self.table(&[], self.root)
    }

    /// Lends the table of level four, to be changed. When the loan ends, the table has the words that were written to
    /// it.
    ///
    /// Other calls of the mapper require a valid hierarchy, and [`is_valid`](Self::is_valid) tests whether it is one
    /// after the changes.
    ///
    /// # Proved
    ///
    /// ```text
    /// ensures* lends { sem 𝓛 (LendsRootTable P.row T.row ⟦<P as PageTableFrameMapping>⟧ ⟦<T as TableMemory>⟧ self.entry result) }
    /// ensures value { root_table (⟦<Self as Tables>⟧.hierarchy self.old) ≡ Some result.now }
    /// ```
    #[inline]
    pub fn level_4_table_mut(&mut self) -> &mut PageTable {
        let level_4 = self.root;
        self.table_mut(&[], level_4)
    }

    /// Returns whether the hierarchy is valid now.
    ///
    /// # Errors
    ///
    /// `AllocError` if memory allocation fails. A memory without places needs no allocation.
    ///
    /// # Proved
    ///
    /// ```text
    /// ensures decides { IfOk result (λ valid. IsTrue valid ↔ Valid (⟦<Self as Tables>⟧.hierarchy self.now)) }
    /// ensures needs_memory { OnErr result (0 < len (⟦<Self as Tables>⟧.hierarchy self.now).memory) }
    /// ```
    #[inline]
    pub fn is_valid(&self) -> Result<bool, AllocError> {
        is_valid_hierarchy(self.memory, &self.mapping, self.root)
    }
}

impl<'a, P: PageTableFrameMapping, T: TableMemory> Direct<'a, P, FiveLevels, T> {
    /// Returns the table of level five, which is in the root's frame.
    ///
    /// # Proved
    ///
    /// ```text
    /// ensures { root_table (⟦<Self as Tables>⟧.hierarchy self.now) ≡ Some result.now }
    /// ```
    #[inline]
    pub fn level_5_table(&self) -> &PageTable {
        self.table(&[], self.root)
    }

    /// Lends the table of level five, to be changed. When the loan ends, the table has the words that were written to
    /// it.
    ///
    /// Other calls of the mapper require a valid hierarchy, and [`is_valid`](Self::is_valid) tests whether it is one
    /// after the changes.
    ///
    /// # Proved
    ///
    /// ```text
    /// ensures* lends { sem 𝓛 (LendsRootTable57 P.row T.row ⟦<P as PageTableFrameMapping>⟧ ⟦<T as TableMemory>⟧ self.entry result) }
    /// ensures value { root_table (⟦<Self as Tables>⟧.hierarchy self.old) ≡ Some result.now }
    /// ```
    #[inline]
    pub fn level_5_table_mut(&mut self) -> &mut PageTable {
        let level_5 = self.root;
        self.table_mut(&[], level_5)
    }

    /// Returns whether the hierarchy is valid now.
    ///
    /// # Errors
    ///
    /// `AllocError` if memory allocation fails. A memory without places needs no allocation.
    ///
    /// # Proved
    ///
    /// ```text
    /// ensures decides { IfOk result (λ valid. IsTrue valid ↔ Valid (⟦<Self as Tables>⟧.hierarchy self.now)) }
    /// ensures needs_memory { OnErr result (0 < len (⟦<Self as Tables>⟧.hierarchy self.now).memory) }
    /// ```
    #[inline]
    pub fn is_valid(&self) -> Result<bool, AllocError> {
        is_valid_hierarchy_57(self.memory, &self.mapping, self.root)
    }
}

impl<'a, P: PageTableFrameMapping, L: LevelCount, T: TableMemory> Tables for Direct<'a, P, L, T> {
    #[inline]
    fn recursive_index(&self) -> Option<PageTableIndex> {
        None
    }
}

impl<'a, P: PageTableFrameMapping, L: LevelCount, T: TableMemory> TablesIn<L> for Direct<'a, P, L, T> {}

impl<'a, P: PageTableFrameMapping, L: LevelCount, T: TableMemory> TableAccess for Direct<'a, P, L, T> {
    #[inline]
    fn root(&self) -> PhysFrame<Size4KiB> {
        self.root
    }

    #[inline]
    fn new_table_flags(&self) -> PageTableFlags {
        PageTableFlags::empty()
    }

    #[inline]
    fn table(&self, _path: &[PageTableIndex], frame: PhysFrame<Size4KiB>) -> &PageTable {
        self.memory.table_at(self.mapping.frame_to_pointer(frame))
    }

    #[inline]
    fn table_mut(&mut self, _path: &[PageTableIndex], frame: PhysFrame<Size4KiB>) -> &mut PageTable {
        let place = self.mapping.frame_to_pointer(frame);
        self.memory.table_at_mut(place)
    }

    #[cold]
    #[inline(never)]
    fn clear_unnamed(&mut self, frame: PhysFrame<Size4KiB>) -> bool {
        self.memory.table_at_mut(self.mapping.frame_to_pointer(frame)).zero();
        true
    }
}
