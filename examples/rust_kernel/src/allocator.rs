//! A heap for Rust's collections. Its pages are mapped one by one, by the traits of mappers and frame allocators alone, so that this file knows
//! neither the kernel's mapper nor its frames.

use core::alloc::{GlobalAlloc, Layout};
use core::sync::atomic::{AtomicU64, Ordering};
use x86_64::structures::paging::mapper::MapToError;
use x86_64::structures::paging::{FrameAllocator, Mapper, Page, PageTableFlags, Size4KiB};
use x86_64::VirtAddr;
use x86_64_paging::kernel as x86_64;

/// Where the heap starts.
pub const START: VirtAddr = VirtAddr::new(0x6666_0000_0000);
/// The heap's size in bytes.
pub const SIZE: u64 = 100 * 1024;

/// Maps the pages of the heap to frames of an allocator, from which missing tables come, too.
///
/// # Safety
///
/// Nothing else uses the heap's addresses, and this is called once, before anything is allocated.
pub unsafe fn init(
    mapper: &mut impl Mapper<Size4KiB>,
    frames: &mut impl FrameAllocator<Size4KiB>,
) -> Result<(), MapToError<Size4KiB>> {
    let (first, last) = (Page::containing_address(START), Page::containing_address(START + (SIZE - 1)));
    for page in Page::range_inclusive(first, last) {
        let frame = frames.allocate_frame().ok_or(MapToError::FrameAllocationFailed)?;
        let flags = PageTableFlags::PRESENT | PageTableFlags::WRITABLE;
        // SAFETY: nothing uses the page, by what the caller promises, or the frame, which was free.
        unsafe { mapper.map_to(page, frame, flags, frames) }?.flush();
    }
    Ok(())
}

/// Hands out the heap from its start on, and takes nothing back.
struct Heap {
    used: AtomicU64,
}

#[global_allocator]
static HEAP: Heap = Heap { used: AtomicU64::new(0) };

// SAFETY: no byte is handed out twice, and all of them are mapped once `init` has returned.
unsafe impl GlobalAlloc for Heap {
    unsafe fn alloc(&self, layout: Layout) -> *mut u8 {
        let (size, align) = (layout.size() as u64, layout.align() as u64);
        // The range that is free afterwards starts behind this one.
        let end_of = |used: u64| used.checked_next_multiple_of(align)?.checked_add(size).filter(|end| *end <= SIZE);
        match self.used.fetch_update(Ordering::Relaxed, Ordering::Relaxed, end_of) {
            Ok(used) => (START + used.next_multiple_of(align)).as_mut_ptr(),
            Err(_) => core::ptr::null_mut(),
        }
    }

    unsafe fn dealloc(&self, _: *mut u8, _: Layout) {}
}
