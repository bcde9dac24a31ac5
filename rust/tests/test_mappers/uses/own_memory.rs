//! Maps a page in the caller's own tables.

use x86_64_paging::structures::paging::mapper::MapToError;
use x86_64_paging::structures::paging::{MappedPageTable, Mapper, Page, PageTable, PageTableFlags, PhysFrame, Size4KiB};
use x86_64_paging::support::AllocError;
use x86_64_paging::{parent_flags, pool_fits, FramePool, IdentityMapping, LentMemory, TableMemory};

/// Maps a page in any memory. Returns false if it may not be mapped with these flags.
pub fn map_in<T: TableMemory>(
    memory: &mut T,
    root: PhysFrame<Size4KiB>,
    page: Page<Size4KiB>,
    frame: PhysFrame<Size4KiB>,
    flags: PageTableFlags,
    pool: &mut FramePool,
) -> Result<bool, MapToError<Size4KiB>> {
    let mut mapper = MappedPageTable::new(memory, root, IdentityMapping);
    if !mapper.map_allowed(page, flags, parent_flags(flags)) {
        return Ok(false);
    }
    mapper.map_to(page, frame, flags, pool)?.ignore();
    Ok(true)
}

/// Returns true if the tables of a slice are a valid hierarchy that a pool fits, so that pages can be mapped in it.
pub fn is_ready(tables: &mut [PageTable], root: PhysFrame<Size4KiB>, pool: &FramePool) -> Result<bool, AllocError> {
    let memory = LentMemory::new(tables);
    pool_fits(&memory, &IdentityMapping, root, pool)
}

/// Maps a page in tables that are a slice, as the memory of a guest is.
pub fn map_in_slice(
    tables: &mut [PageTable],
    root: PhysFrame<Size4KiB>,
    page: Page<Size4KiB>,
    frame: PhysFrame<Size4KiB>,
    flags: PageTableFlags,
    pool: &mut FramePool,
) -> Result<bool, MapToError<Size4KiB>> {
    let mut memory = LentMemory::new(tables);
    map_in(&mut memory, root, page, frame, flags, pool)
}
