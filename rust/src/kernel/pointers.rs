//! Mappers that reach tables at the pointers of their frames.

use super::frame_alloc::{FrameAllocator, FrameDeallocator, Removed, Supply};
use super::mapper::{forward_calls, CleanUp, CleanUpBelowRoot, Mapper, RangeMapper, Sink, Translate};
use crate::access::{access, Access, Controls, Fault};
use crate::addresses::addr::{PhysAddr, VirtAddrIn};
use crate::addresses::index::PageTableIndex;
use crate::addresses::level_count::{FiveLevels, FourLevels, LevelCount};
use crate::mappers::calls::{self, MapRangeErrorIn, TableAccess};
use crate::pages::frame::PhysFrame;
use crate::pages::page::{PageIn, PageSize, Size4KiB};
use crate::pages::range::BlockRangeInclusive;
use crate::spaces::{self, GiveUpError, SharedIndices, Space};
use crate::tables::errors::{FlagUpdateError, MapToError, TranslateError, UnmapError};
use crate::tables::page_table::{PageTable, PageTableFlags};
use crate::tables::page_tables::{Tables, TablesIn};
use crate::tables::phys_memory::{FramePlace, IdentityMapping, TableMemory};
use crate::tables::tokens::{MapperFlushAll, MapperFlushIn, MapperFlushRangeIn};
use crate::tables::translation::TranslateResult;
use core::arch::asm;
use core::fmt;
use core::marker::PhantomData;

/// Says where the tables in frames are.
///
/// # Safety
///
/// For each frame that a mapper with this asks for, `frame_to_pointer` returns where the frame is mapped, readable and writable.
pub unsafe trait PageTableFrameMapping {
    /// Returns a pointer to the table in a frame.
    fn frame_to_pointer(&self, frame: PhysFrame) -> *mut PageTable;
}

// SAFETY: it is the one that is borrowed.
unsafe impl<P: PageTableFrameMapping + ?Sized> PageTableFrameMapping for &P {
    #[inline]
    fn frame_to_pointer(&self, frame: PhysFrame) -> *mut PageTable {
        (**self).frame_to_pointer(frame)
    }
}

/// The frame that stands for that of the root, whose address isn't known: the last one that a word can name, where no table is.
const ROOT: u64 = (1 << 40) - 1;

/// The tables of a hierarchy, for the proved code. It is private, so its calls, which are safe functions, are for this module alone.
struct Pointers<'a, P> {
    root: &'a mut PageTable,
    mapping: P,
}

impl<P> Tables for Pointers<'_, P> {
    #[inline]
    fn recursive_index(&self) -> Option<PageTableIndex> {
        None
    }
}

impl<P, L: LevelCount> TablesIn<L> for Pointers<'_, P> {}

impl<P: PageTableFrameMapping> TableAccess for Pointers<'_, P> {
    #[inline]
    fn root(&self) -> PhysFrame {
        PhysFrame::from_pfn(ROOT)
    }

    #[inline]
    fn new_table_flags(&self) -> PageTableFlags {
        PageTableFlags::empty()
    }

    #[inline]
    fn table(&self, path: &[PageTableIndex], frame: PhysFrame) -> &PageTable {
        if path.is_empty() {
            return self.root;
        }
        // SAFETY: an entry of a table names the frame, so its table is at this pointer, and is borrowed with the mapper (`new`).
        unsafe { &*self.mapping.frame_to_pointer(frame) }
    }

    #[inline]
    fn table_mut(&mut self, path: &[PageTableIndex], frame: PhysFrame) -> &mut PageTable {
        if path.is_empty() {
            return self.root;
        }
        // SAFETY: as above, and the mapper is borrowed mutably.
        unsafe { &mut *self.mapping.frame_to_pointer(frame) }
    }

    #[inline]
    fn clear_unnamed(&mut self, frame: PhysFrame) -> bool {
        // SAFETY: an allocator has handed the frame out for a table, so nothing else uses it. The second does nothing, but the compiler
        // doesn't know this. So the table is cleared before the entry is written by which a processor finds it.
        unsafe {
            (*self.mapping.frame_to_pointer(frame)).zero();
            asm!("", options(nostack, preserves_flags));
        }
        true
    }
}

/// Lists and accesses read the tables by their frames.
impl<P: PageTableFrameMapping> TableMemory for Pointers<'_, P> {
    fn len(&self) -> usize {
        1 << 40
    }

    fn place_at(&self, n: usize) -> Option<FramePlace> {
        (n < self.len()).then(|| FramePlace::new(n as u64))
    }

    fn index_of(&self, place: FramePlace) -> Option<usize> {
        Some(place.number() as usize)
    }

    #[inline]
    fn table(&self, place: FramePlace) -> Option<&PageTable> {
        Some(self.table_at(place))
    }

    #[inline]
    fn table_mut(&mut self, place: FramePlace) -> Option<&mut PageTable> {
        Some(self.table_at_mut(place))
    }

    #[inline]
    fn table_at(&self, place: FramePlace) -> &PageTable {
        if place.number() == ROOT {
            return self.root;
        }
        // SAFETY: as for `TableAccess::table`.
        unsafe { &*self.mapping.frame_to_pointer(PhysFrame::from_pfn(place.number())) }
    }

    #[inline]
    fn table_at_mut(&mut self, place: FramePlace) -> &mut PageTable {
        if place.number() == ROOT {
            return self.root;
        }
        // SAFETY: as for `TableAccess::table_mut`.
        unsafe { &mut *self.mapping.frame_to_pointer(PhysFrame::from_pfn(place.number())) }
    }
}

/// Implements what both mappers have beside the calls.
macro_rules! methods {
    ([$($generics:tt)*] $In:ty, $Four:ty, $Five:ty, $name:literal) => {
        impl<$($generics)*, L: LevelCount> $In {
            /// Returns what a processor does with an access, as [`access`](crate::access::access) does. The crate `x86_64` doesn't have it.
            ///
            /// # Errors
            ///
            /// The fault that the processor raises.
            pub fn access(&self, addr: VirtAddrIn<L>, request: Access, controls: &Controls) -> Result<PhysAddr, Fault> {
                access(&self.tables, &IdentityMapping, self.tables.root(), addr, request, controls)
            }

            /// Lists what is mapped from an address on, as [`mappings_from`](crate::mappings_from) does. The crate `x86_64` doesn't have it.
            pub fn mappings_from(&self, addr: VirtAddrIn<L>) -> impl Iterator<Item = crate::MappingIn<L>> + '_ {
                crate::mappings_from(&self.tables, &IdentityMapping, self.tables.root(), addr)
            }

            /// Takes a frame of an allocator and makes it the root of one more address space, as [`new_space`](crate::new_space) does.
            /// Returns the frame, or `None` if there is none. The crate `x86_64` doesn't have it.
            ///
            /// The root gets this root's entries at the shared indices, and so its tables below them. It maps nothing elsewhere. With a
            /// recursive index, its entry there names itself. A mapper for the new space takes the root at its frame's pointer.
            ///
            /// Processors mark entries that they use, each in the root that they use. If the shared entries have `ACCESSED` before, the
            /// roots stay alike there.
            ///
            /// # Safety
            ///
            /// From now on, each hierarchy is valid, and some tables are in several of them. It lasts until the space is given up:
            ///
            /// - The shared indices are the same for all spaces that are made of this one. At these indices no entry of any of the roots
            ///   changes any more, since the others wouldn't: each that is ever to be used names a table before the first space is made.
            ///   So no call changes such an entry: none removes the table that it names, as [`clean_up`](CleanUp::clean_up) of all pages
            ///   may, and none adds parent flags to it or sets its flags. Below these tables
            ///   [`clean_up_below_root`](CleanUpBelowRoot::clean_up_below_root) removes those that are empty.
            /// - While a call of a mapper of one of the spaces runs, none of another one does.
            /// - What [`Mapper`] and [`CleanUp`] ask for holds in each space with the same tables. `GLOBAL` stands only in flags of pages
            ///   below shared indices.
            /// - If the recursive index is a shared one, this root's entry there is unused.
            /// - What was due for the frame when it was freed is flushed, and no processor holds it as a root: each PCID (with none, 0)
            ///   under which CR3 was last loaded with the frame has been loaded with another root since, or its next load drops what is
            ///   cached ([`Cr3::write_pcid`](crate::registers::control::Cr3::write_pcid)).
            pub unsafe fn new_space<A: FrameAllocator<Size4KiB> + ?Sized>(
                &mut self,
                shared: SharedIndices,
                recursive: Option<PageTableIndex>,
                frame_allocator: &mut A,
            ) -> Option<PhysFrame> {
                let template = Space { root: self.tables.root(), recursive: None };
                let supply = &mut Supply(frame_allocator);
                spaces::new_space::<L, _, _, _>(&mut self.tables, &IdentityMapping, &template, shared, recursive, supply)
            }

            /// Gives up another address space: clears its root and passes the root's frame to a deallocator, as
            /// [`give_up_space`](crate::give_up_space) does. The crate `x86_64` doesn't have it.
            ///
            /// What is below the shared indices stays for the other spaces. The space's own tables have to be gone, as after a
            /// [`clean_up_addr_range`](CleanUp::clean_up_addr_range) of the pages that aren't shared, by a mapper of that space.
            ///
            /// # Errors
            ///
            /// `EntryUsed` if an entry that isn't shared is used, else `FrameZero` if the root is in frame 0. On an error nothing changes.
            ///
            /// # Panics
            ///
            /// With debug assertions, panics if the space is that of this mapper, by the pointer to its root.
            ///
            /// # Safety
            ///
            /// - The space is one that [`new_space`](Self::new_space) made, or was made like that, with the same shared indices. Its root
            ///   is at its frame's pointer, isn't this mapper's, and nothing else reads or writes it: no mapper for it is left.
            /// - The frame belongs to the deallocator.
            /// - No processor uses the root, or loads it later. Each PCID (with none, 0) that holds the root, since CR3 was last loaded with
            ///   it under this PCID, is given up on each processor: its next load drops what is cached, as
            ///   [`Cr3::write_pcid`](crate::registers::control::Cr3::write_pcid) does and
            ///   [`Cr3::write_pcid_no_flush`](crate::registers::control::Cr3::write_pcid_no_flush) doesn't. So says the law
            ///   `given_up_roots_may_happen`: an address space may end, and its root go back to the pool, once no PCID holds it.
            pub unsafe fn give_up_space<D: FrameDeallocator<Size4KiB> + ?Sized>(
                &mut self,
                space: &Space,
                shared: SharedIndices,
                frame_deallocator: &mut D,
            ) -> Result<(), GiveUpError> {
                debug_assert!(!core::ptr::eq(self.tables.mapping.frame_to_pointer(space.root), self.tables.root));
                let removed = &mut Removed(frame_deallocator);
                spaces::give_up_space::<L, _, _, _>(&mut self.tables, &IdentityMapping, space, shared, removed)
            }
        }

        impl<$($generics)*> $Four {
            /// Returns the table of level four.
            #[inline]
            pub fn level_4_table(&self) -> &PageTable {
                self.tables.root
            }

            /// Lends the table of level four, to be changed. The hierarchy must be valid again when the mapper is used next.
            #[inline]
            pub fn level_4_table_mut(&mut self) -> &mut PageTable {
                self.tables.root
            }

            /// Lists the regions that are mapped alike, as [`regions`](crate::regions) does. The crate `x86_64` doesn't have it.
            pub fn regions(&self) -> impl Iterator<Item = crate::Region> + '_ {
                crate::regions(&self.tables, &IdentityMapping, self.tables.root())
            }
        }

        impl<$($generics)*> $Five {
            /// Returns the table of level five.
            #[inline]
            pub fn level_5_table(&self) -> &PageTable {
                self.tables.root
            }

            /// Lends the table of level five, to be changed.
            ///
            /// # Safety
            ///
            /// What is changed suits a processor that uses the tables, and the hierarchy is valid again when the mapper is used next.
            #[inline]
            pub unsafe fn level_5_table_mut(&mut self) -> &mut PageTable {
                self.tables.root
            }

            /// Lists the regions that are mapped alike, as [`regions_57`](crate::regions_57) does.
            pub fn regions(&self) -> impl Iterator<Item = crate::Region57> + '_ {
                crate::regions_57(&self.tables, &IdentityMapping, self.tables.root())
            }

            /// Gives the entry of level five on the path to a page these flags.
            ///
            /// # Errors
            ///
            /// `PageNotMapped` if it isn't used.
            ///
            /// # Safety
            ///
            /// As for [`set_flags_p4_entry`](Mapper::set_flags_p4_entry).
            pub unsafe fn set_flags_p5_entry<S: PageSize>(
                &mut self,
                page: PageIn<S, FiveLevels>,
                flags: PageTableFlags,
            ) -> Result<MapperFlushAll, FlagUpdateError> {
                calls::set_table_flags(&mut self.tables, page, 5, flags)
            }
        }

        impl<$($generics)*, L: LevelCount> fmt::Debug for $In {
            fn fmt(&self, f: &mut fmt::Formatter<'_>) -> fmt::Result {
                f.debug_struct($name).finish_non_exhaustive()
            }
        }
    };
}

/// A mapper for `L` levels of tables, which it reaches by a mapping of frames to pointers.
pub struct MappedPageTableIn<'a, P: PageTableFrameMapping, L: LevelCount> {
    tables: Pointers<'a, P>,
    levels: PhantomData<L>,
}

/// A mapper for four levels of tables, which it reaches by a mapping of frames to pointers.
pub type MappedPageTable<'a, P> = MappedPageTableIn<'a, P, FourLevels>;

/// A mapper for five levels of tables, which it reaches by a mapping of frames to pointers.
pub type MappedPageTable57<'a, P> = MappedPageTableIn<'a, P, FiveLevels>;

impl<'a, P: PageTableFrameMapping, L: LevelCount> MappedPageTableIn<'a, P, L> {
    /// Creates a mapper for the hierarchy with this root, the table of level four or five.
    ///
    /// # Safety
    ///
    /// - The mapping returns the pointer to each table below the root, and to each frame that an allocator hands out, as long as the
    ///   mapper lives.
    /// - The hierarchy is valid: no two entries name one table, none names the root, and entries above level one that aren't 0 name
    ///   tables or, at levels three and two, map huge pages.
    /// - Nothing else reads or writes its tables meanwhile but processors that walk them, and between its calls the mappers of spaces
    ///   that share some of them ([`new_space`](Self::new_space)).
    /// - The mapper isn't lent mutably to code that isn't to be trusted with the address space: there are safe methods that take pages
    ///   away ([`unmap`](Mapper::unmap)) or lend the root's table (`level_4_table_mut`), as in the crate `x86_64`.
    #[inline]
    pub unsafe fn new(root: &'a mut PageTable, page_table_frame_mapping: P) -> Self {
        MappedPageTableIn { tables: Pointers { root, mapping: page_table_frame_mapping }, levels: PhantomData }
    }

    /// Returns the mapping.
    #[inline]
    pub fn page_table_frame_mapping(&self) -> &P {
        &self.tables.mapping
    }
}

methods! { ['a, P: PageTableFrameMapping] MappedPageTableIn<'a, P, L>, MappedPageTable<'a, P>, MappedPageTable57<'a, P>, "MappedPageTable" }
forward_calls! { ['a, P: PageTableFrameMapping, L: LevelCount] MappedPageTableIn<'a, P, L>, L, tables, {} }

/// All physical memory, mapped from one virtual address on.
struct PhysOffset<L: LevelCount>(VirtAddrIn<L>);

// SAFETY: all physical memory is mapped at the offset (`OffsetPageTableIn::new`).
unsafe impl<L: LevelCount> PageTableFrameMapping for PhysOffset<L> {
    #[inline]
    fn frame_to_pointer(&self, frame: PhysFrame) -> *mut PageTable {
        self.0.as_u64().wrapping_add(frame.start_address().as_u64()) as *mut PageTable
    }
}

/// A mapper for `L` levels of tables, in physical memory that is mapped as a whole at an offset.
pub struct OffsetPageTableIn<'a, L: LevelCount> {
    tables: Pointers<'a, PhysOffset<L>>,
}

/// A mapper for four levels of tables, in physical memory that is mapped as a whole at an offset.
pub type OffsetPageTable<'a> = OffsetPageTableIn<'a, FourLevels>;

/// A mapper for five levels of tables, in physical memory that is mapped as a whole at an offset.
pub type OffsetPageTable57<'a> = OffsetPageTableIn<'a, FiveLevels>;

impl<'a, L: LevelCount> OffsetPageTableIn<'a, L> {
    /// Creates a mapper for the hierarchy with this root, the table of level four or five, in the memory that is mapped at an offset.
    ///
    /// # Safety
    ///
    /// - All physical memory is mapped at the offset, readable and writable, as long as the mapper lives.
    /// - The hierarchy is valid, and nothing else reads or writes its tables, as [`MappedPageTable::new`](MappedPageTableIn::new) says.
    /// - The mapper isn't lent mutably to code that isn't to be trusted with the address space: there are safe methods that take pages
    ///   away ([`unmap`](Mapper::unmap)) or lend the root's table (`level_4_table_mut`), as in the crate `x86_64`.
    #[inline]
    pub unsafe fn new(root: &'a mut PageTable, phys_offset: VirtAddrIn<L>) -> Self {
        OffsetPageTableIn { tables: Pointers { root, mapping: PhysOffset(phys_offset) } }
    }

    /// Returns the offset.
    #[inline]
    pub fn phys_offset(&self) -> VirtAddrIn<L> {
        self.tables.mapping.0
    }
}

methods! { ['a] OffsetPageTableIn<'a, L>, OffsetPageTable<'a>, OffsetPageTable57<'a>, "OffsetPageTable" }
forward_calls! { ['a, L: LevelCount] OffsetPageTableIn<'a, L>, L, tables, {} }
