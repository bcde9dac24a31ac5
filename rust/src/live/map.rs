//! Maps that change nothing if they are refused.

use crate::addresses::level_count::LevelCount;
use crate::live::look::would_map;
use crate::mappers::calls::{map_allowed, map_to_with_table_flags};
use crate::mappers::mapped_page_table::MappedPageTableIn;
use crate::pages::frame::PhysFrame;
use crate::pages::page::{PageIn, PageSize, Size4KiB};
use crate::tables::errors::MapToError;
use crate::tables::frame_alloc::FrameAllocator;
use crate::tables::page_table::PageTableFlags;
use crate::tables::phys_memory::{PageTableFrameMapping, TableMemory};
use crate::tables::tokens::MapperFlushIn;

/// A map of a page to a frame.
#[derive(Clone, Copy)]
pub struct PageMap<S: PageSize, L: LevelCount> {
    /// The page.
    pub page: PageIn<S, L>,
    /// The frame.
    pub frame: PhysFrame<S>,
    /// The flags of the page's own entry.
    pub flags: PageTableFlags,
    /// The flags that the entries above it get.
    pub parent_flags: PageTableFlags,
}

/// Returns true if a page may be mapped with the flags and parent flags of a map, and changes nothing.
///
/// Requires that the hierarchy is valid. It borrows the memory as a mapper does, whose
/// [`map_allowed`](crate::mappers::calls::map_allowed) answers.
///
/// # Proved
///
/// ```text
/// requires { Valid (direct_at L.LEVELS (P.places mapping) root laid_in T.tables memory.old) }
/// ensures answer { result ≡ allows (direct_at L.LEVELS (P.places mapping) root laid_in T.tables memory.old) (call_for S.LEVEL map) }
/// ensures kept { T.tables memory.new ≡ T.tables memory.old }
/// ensures lent { T.lent memory.new ≡ T.lent memory.old }
/// ```
#[inline]
pub fn may_map<S: PageSize, L: LevelCount, T: TableMemory, P: PageTableFrameMapping>(
    memory: &mut T,
    mapping: P,
    root: PhysFrame<Size4KiB>,
    map: PageMap<S, L>,
) -> bool {
    let mapper = MappedPageTableIn::<_, L, T>::new(memory, root, mapping);
    map_allowed(&mapper, map.page, map.flags, map.parent_flags)
}

/// Maps a page to a frame as [`map_to_with_table_flags`] does, or changes nothing if the map is refused: no word of the memory,
/// and no frame of the allocator.
///
/// [`map_to_with_table_flags`] adds the parent flags to used entries, and takes frames for missing tables, before it finds out
/// that it has to refuse. This looks first, as [`would_map`] does.
///
/// Requires that the hierarchy is valid, that the allocator's frames fit it and are `free_frames` in number, and that [`may_map`]
/// returns true.
///
/// # Errors
///
/// Those of [`would_map`], which are those of [`map_to_with_table_flags`].
///
/// # Proved
///
/// ```text
/// requires may { MayMap (direct_at L.LEVELS (P.places mapping) root laid_in T.tables memory.old) (A.supply frame_allocator.old) (call_for S.LEVEL map) }
/// requires count { length (A.supply frame_allocator.old) ≡ free_frames }
/// ensures maps { let layout = direct_at L.LEVELS (P.places mapping) root in MapsOrNothing (layout laid_in T.tables memory.old) (supply_of A.FrameAllocator frame_allocator.old) S.LEVEL map (map_answer map.frame result) (layout laid_in T.tables memory.new) (supply_of A.FrameAllocator frame_allocator.new) }
/// ensures refused { OnErr result ((memory.new ≡ memory.old) × (frame_allocator.new ≡ frame_allocator.old)) }
/// ensures page { IfOk result (λ flush. flush ≡ map.page) }
/// ensures lent { T.lent memory.new ≡ T.lent memory.old }
/// ```
pub fn map_or_nothing<
    S: PageSize,
    L: LevelCount,
    T: TableMemory,
    P: PageTableFrameMapping,
    A: FrameAllocator<Size4KiB> + ?Sized,
>(
    memory: &mut T,
    mapping: P,
    root: PhysFrame<Size4KiB>,
    map: PageMap<S, L>,
    frame_allocator: &mut A,
    free_frames: usize,
) -> Result<MapperFlushIn<S, L>, MapToError<S>> {
    let PageMap { page, frame, flags, parent_flags } = map;
    would_map(memory, &mapping, root, page, frame, free_frames)?;
    let mut mapper = MappedPageTableIn::<_, L, T>::new(memory, root, mapping);
    map_to_with_table_flags(&mut mapper, page, frame, flags, parent_flags, frame_allocator)
}
