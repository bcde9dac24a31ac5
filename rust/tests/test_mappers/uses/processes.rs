//! A kernel with several processes. Each has an address space of its own, whose upper half is the kernel's, and one pool
//! has the frames for all tables.

use crate::uses::run_in_space::call_on;
use x86_64_paging::structures::paging::{Page, PageTableFlags, PhysFrame, Size4KiB};
use x86_64_paging::{
    give_up_space, new_space, Call, FourLevels, FramePool, GiveUpError, IdentityMapping, Reply, SharedIndices, SizeCall, Space,
    TableMemory, VirtAddr,
};

/// Starts a process: makes an address space for it, with the kernel's half and nothing mapped in its own half. Returns
/// its root, or `None` if no frame is free. Whatever other processes run, they keep their maps.
///
/// Requires that the kernel's hierarchy is valid, and that the pool fits it.
pub fn start<T: TableMemory>(memory: &mut T, kernel: PhysFrame<Size4KiB>, pool: &mut FramePool) -> Option<PhysFrame<Size4KiB>> {
    let template = Space { root: kernel, recursive: None };
    let half = SharedIndices::UPPER_HALF;
    new_space::<FourLevels, _, _, _>(memory, &IdentityMapping, &template, half, None, pool)
}

/// Maps a page of a process to a frame, and returns the reply, which is `NotAllowed` for a page of the kernel's half.
/// Whatever other processes run, they keep their maps.
///
/// Requires that the hierarchy of the process is valid, and that the pool fits it.
pub fn map_in<T: TableMemory>(
    memory: &mut T,
    process: PhysFrame<Size4KiB>,
    page: Page<Size4KiB>,
    frame: PhysFrame<Size4KiB>,
    flags: PageTableFlags,
    pool: &mut FramePool,
) -> Reply {
    if is_kernels(page) {
        return Reply::NotAllowed;
    }
    let call = Call::Of4KiB(SizeCall::MapTo { page, frame, flags });
    call_on(memory, IdentityMapping, process, pool, call)
}

/// Ends a process: unmaps these pages of its half, and returns the frames of its tables and its root to the pool.
/// Whatever other processes run, they keep their maps. No frame is lost.
///
/// Requires that the hierarchy of the process is valid, and that the pool fits it and serves its root.
///
/// # Errors
///
/// `EntryUsed` if more is mapped in its half. Then it goes on without these pages.
pub fn end<T: TableMemory>(
    memory: &mut T,
    process: PhysFrame<Size4KiB>,
    pages: &[Page<Size4KiB>],
    pool: &mut FramePool,
) -> Result<(), GiveUpError> {
    for page in pages {
        unmap_in(memory, process, *page, pool);
    }
    free_tables(memory, process, pool);
    let space = Space { root: process, recursive: None };
    let half = SharedIndices::UPPER_HALF;
    give_up_space::<FourLevels, _, _, _>(memory, &IdentityMapping, &space, half, pool)
}

/// Unmaps a page of a process, if it isn't one of the kernel's half.
fn unmap_in<T: TableMemory>(memory: &mut T, process: PhysFrame<Size4KiB>, page: Page<Size4KiB>, pool: &mut FramePool) {
    if !is_kernels(page) {
        let call = Call::Of4KiB(SizeCall::Unmap { page });
        call_on(memory, IdentityMapping, process, pool, call);
    }
}

/// Returns the frames of the empty tables of a process to the pool. Those below the kernel's half stay.
fn free_tables<T: TableMemory>(memory: &mut T, process: PhysFrame<Size4KiB>, pool: &mut FramePool) {
    let first = Page::containing_address(VirtAddr::new_truncate(0));
    let last = Page::containing_address(VirtAddr::new_truncate(0x7fff_ffff_f000));
    let call = Call::CleanUpRange(Page::range_inclusive(first, last));
    call_on(memory, IdentityMapping, process, pool, call);
}

/// Returns whether a page is in the upper half of the address space, which is the kernel's.
pub fn is_kernels(page: Page<Size4KiB>) -> bool {
    usize::from(page.p4_index()) >= 256
}
