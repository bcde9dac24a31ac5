//! The operations on one page of a workload, with a mapper of any number of levels.
ghost use Rattle.std.specs.Prelude.{◌≡◌};
ghost use Rattle.x86_64_model.specs.Hierarchy.{Valid, SupplyFits};

use crate::workload::Workload;
use bitflags::Flags;
use x86_64::structures::paging::{FrameAllocator, PageSize, PageTableFlags, Size4KiB};
use x86_64::{LevelCount, TablesIn, is_outside_window};
use x86_64_mappers::calls::{
    TableAccess, map_to, translate_addr, unmap, update_flags,
};

/// Returns the flags of each page.
pub fn flags() -> PageTableFlags
    ensures { result.0 ≡ 3 }
{
    PageTableFlags::PRESENT.union(PageTableFlags::WRITABLE)
}

/// Maps the `k`-th page, and returns true if it was mapped.
pub fn map_page<
    S: PageSize,
    L: LevelCount,
    M: TableAccess + TablesIn<L>,
    A: FrameAllocator<Size4KiB>,
>(mapper: &mut M, workload: Workload, k: u32, allocator: &mut A) -> bool
    requires { SupplyFits (M.hierarchy mapper.old) (A.supply allocator.old) }
    ensures { SupplyFits (M.hierarchy mapper.new) (A.supply allocator.new) }
{
    let page = workload.page::<S, L>(k);
    if !is_outside_window(mapper, page) {
        return false;
    }
    match map_to(mapper, page, workload.frame(k), flags(), allocator) {
        Ok(flush) => {
            flush.ignore();
            true
        }
        Err(_) => false,
    }
}

/// Unmaps the `k`-th page, and returns true if it was mapped.
pub fn unmap_page<S: PageSize, L: LevelCount, M: TableAccess + TablesIn<L>>(
    mapper: &mut M,
    workload: Workload,
    k: u32,
) -> bool
    requires { Valid (M.hierarchy mapper.old) }
    ensures { Valid (M.hierarchy mapper.new) }
{
    let page = workload.page::<S, L>(k);
    if !is_outside_window(mapper, page) {
        return false;
    }
    match unmap(mapper, page) {
        Ok((_, flush)) => {
            flush.ignore();
            true
        }
        Err(_) => false,
    }
}

/// Sets the flags of the `k`-th page, and returns true if it was mapped.
pub fn update_page<S: PageSize, L: LevelCount, M: TableAccess + TablesIn<L>>(
    mapper: &mut M,
    workload: Workload,
    k: u32,
) -> bool
    requires { Valid (M.hierarchy mapper.old) }
    ensures { Valid (M.hierarchy mapper.new) }
{
    let page = workload.page::<S, L>(k);
    if flags().has_address_bits() || !is_outside_window(mapper, page) {
        return false;
    }
    match update_flags(mapper, page, flags()) {
        Ok(flush) => {
            flush.ignore();
            true
        }
        Err(_) => false,
    }
}

/// Returns true if the `k`-th page is translated to its frame.
pub fn finds_page<S: PageSize, L: LevelCount, M: TableAccess + TablesIn<L>>(
    mapper: &M,
    workload: Workload,
    k: u32,
) -> bool
    requires { Valid (M.hierarchy mapper.now) }
{
    let addr = workload.page::<S, L>(k).start_address();
    translate_addr(mapper, addr) == Some(workload.frame::<S>(k).start_address())
}
