//! Tables above a page

use crate::addresses::level_count::LevelCount;
use crate::bitflags::Flags;
use crate::live::look::would_prepare;
use crate::mappers::calls::{create_tables, map_allowed};
use crate::mappers::mapped_page_table::MappedPageTableIn;
use crate::pages::frame::PhysFrame;
use crate::pages::page::{PageIn, PageSize, Size4KiB};
use crate::tables::errors::MapToError;
use crate::tables::frame_alloc::FrameAllocator;
use crate::tables::page_table::PageTableFlags;
use crate::tables::phys_memory::{PageTableFrameMapping, TableMemory};

/// Returns true if the tables above a page may be made with these parent flags, and changes nothing.
///
/// That is so if the page may be mapped with them and no flags of its own. Requires that the hierarchy is valid. It borrows the memory
/// as a mapper does, whose [`map_allowed`] answers.
///
/// # Proved
///
/// ```text
/// requires { Valid (direct_at L.LEVELS (P.places mapping) root laid_in T.tables memory.old) }
/// ensures answer { let h = direct_at L.LEVELS (P.places mapping) root laid_in T.tables memory.old in result ≡ allows_page h S.LEVEL page 0 (bits_of parent_flags) }
/// ensures kept { T.tables memory.new ≡ T.tables memory.old }
/// ensures lent { T.lent memory.new ≡ T.lent memory.old }
/// ```
pub fn may_prepare<S: PageSize, L: LevelCount, T: TableMemory, P: PageTableFrameMapping>(
    memory: &mut T,
    mapping: P,
    root: PhysFrame<Size4KiB>,
    page: PageIn<S, L>,
    parent_flags: PageTableFlags,
) -> bool {
    let mapper = MappedPageTableIn::<_, L, T>::new(memory, root, mapping);
    map_allowed(&mapper, page, PageTableFlags::empty(), parent_flags)
}

/// Makes the tables above a page, or changes nothing if this is refused: no word of the memory, and no frame of the allocator.
///
/// Afterwards each entry above the page names a table and has the parent flags. The page's own entry, used or not, is neither read
/// nor written: another processor may exchange it at the same time. A later map of the page needs no frame, and does what it
/// would have done alone.
///
/// This looks first, as [`would_prepare`] does. Requires that the hierarchy is valid, that the allocator's frames fit it and are
/// `free_frames` in number, and that [`may_prepare`] returns true.
///
/// # Errors
///
/// Those of [`would_prepare`].
///
/// # Proved
///
/// ```text
/// requires may { MayMap (direct_at L.LEVELS (P.places mapping) root laid_in T.tables memory.old) (A.supply frame_allocator.old) (MapToWithTableFlags S.LEVEL page 0 0 (bits_of parent_flags)) }
/// requires count { length (A.supply frame_allocator.old) ≡ free_frames }
/// ensures prepares { let layout = direct_at L.LEVELS (P.places mapping) root in Prepares (layout laid_in T.tables memory.old) (supply_of A.FrameAllocator frame_allocator.old) S.LEVEL page (bits_of parent_flags) (tables_refusal result) (layout laid_in T.tables memory.new) (supply_of A.FrameAllocator frame_allocator.new) }
/// ensures refused { OnErr result ((memory.new ≡ memory.old) × (frame_allocator.new ≡ frame_allocator.old)) }
/// ensures lent { T.lent memory.new ≡ T.lent memory.old }
/// ```
pub fn prepare<S: PageSize, L: LevelCount, T: TableMemory, P: PageTableFrameMapping, A: FrameAllocator<Size4KiB> + ?Sized>(
    memory: &mut T,
    mapping: P,
    root: PhysFrame<Size4KiB>,
    page: PageIn<S, L>,
    parent_flags: PageTableFlags,
    frame_allocator: &mut A,
    free_frames: usize,
) -> Result<(), MapToError<S>> {
    would_prepare(memory, &mapping, root, page, free_frames)?;
    let mut mapper = MappedPageTableIn::<_, L, T>::new(memory, root, mapping);
    create_tables(&mut mapper, page, parent_flags, frame_allocator)
}
