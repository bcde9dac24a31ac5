//! Memory: frames that nothing uses, and the kernel's page tables.

use crate::levels::{OffsetPageTable, Page, VirtAddr};
use crate::machine::Region;
use core::fmt::Debug;
use x86_64::registers::control::{Cr3, Cr3Flags};
use x86_64::structures::paging::mapper::RangeMapper;
use x86_64::structures::paging::{
    FrameAllocator, FrameDeallocator, PageSize, PageTable, PageTableFlags as Flags, PhysFrame, Size2MiB, Size4KiB,
};
use x86_64::PhysAddr;
use x86_64_paging::kernel as x86_64;

/// All physical memory is mapped from here on.
pub const DIRECT: VirtAddr = VirtAddr::new(0xffff_8000_0000_0000);
/// The kernel is mapped at its physical addresses plus this (kernel.ld).
pub const KERNEL: u64 = 0xffff_ffff_8000_0000;

unsafe extern "C" {
    static text_start: u8;
    static constants_start: u8;
    static data_start: u8;
    static data_end: u8;
}

/// Frames that nothing uses: those that were never used, and a list of those that came back, each with the address of the next one.
pub struct Frames {
    unused: core::ops::Range<u64>,
    freed: Option<PhysFrame>,
    pub free: u64,
}

impl Frames {
    /// Takes the usable memory behind the kernel.
    ///
    /// # Safety
    ///
    /// Nothing else uses it.
    pub unsafe fn new(regions: &[Region]) -> Frames {
        let kernel_end = &raw const data_end as u64 - KERNEL;
        let region = regions.iter().find(|r| r.kind == 1 && r.start <= kernel_end && kernel_end < r.start + r.size);
        let region_end = region.map_or(kernel_end, |r| r.start + r.size);
        let unused = kernel_end / Size4KiB::SIZE..region_end / Size4KiB::SIZE;
        Frames { free: unused.end - unused.start, unused, freed: None }
    }

    /// Takes frames that follow each other, and returns the first.
    pub fn take_range(&mut self, count: u64) -> PhysFrame {
        assert!(count <= self.unused.end - self.unused.start, "no memory is left");
        self.unused.start += count;
        self.free -= count;
        PhysFrame::from_pfn(self.unused.start - count)
    }
}

/// Returns where a free frame has the address of the next one.
fn next_of(frame: PhysFrame) -> *mut Option<PhysFrame> {
    (DIRECT + frame.start_address().as_u64()).as_mut_ptr()
}

// SAFETY: a frame is in `unused` or in the list, until it is handed out.
unsafe impl FrameAllocator<Size4KiB> for Frames {
    fn allocate_frame(&mut self) -> Option<PhysFrame> {
        if let Some(frame) = self.freed {
            // SAFETY: `deallocate_frame` has written this.
            self.freed = unsafe { *next_of(frame) };
            self.free -= 1;
            return Some(frame);
        }
        (!self.unused.is_empty()).then(|| self.take_range(1))
    }
}

impl FrameDeallocator<Size4KiB> for Frames {
    unsafe fn deallocate_frame(&mut self, frame: PhysFrame) {
        // SAFETY: the frame is free from now on, and mapped at `DIRECT`.
        unsafe { *next_of(frame) = self.freed };
        self.freed = Some(frame);
        self.free += 1;
    }
}

/// Makes the kernel's own page tables, in place of those of boot.s, and lets the processor use them.
///
/// # Safety
///
/// The memory in `regions`, all usable memory, isn't above the first GiB, which boot.s has mapped at `DIRECT`. This is called once.
pub unsafe fn init(regions: &[Region], frames: &mut Frames) -> OffsetPageTable<'static> {
    let root = frames.allocate_frame().expect("no memory is left");
    // SAFETY: nothing else uses the frame, and the hierarchy is valid: its root is empty.
    let table: &'static mut PageTable = unsafe { &mut *(DIRECT + root.start_address().as_u64()).as_mut_ptr() };
    table.zero();
    let mut mapper = unsafe { OffsetPageTable::new(table, DIRECT) };

    let end = regions.iter().filter(|r| r.kind == 1).map(|r| r.start + r.size).max().unwrap_or(0);
    map_kernel::<Size2MiB>(&mut mapper, DIRECT, end, PhysAddr::zero(), Flags::WRITABLE | Flags::NO_EXECUTE, frames);
    let (text, constants, data) = (&raw const text_start, &raw const constants_start, &raw const data_start);
    for (from, to, flags) in [
        (text, constants, Flags::empty()),
        (constants, data, Flags::NO_EXECUTE),
        (data, &raw const data_end, Flags::WRITABLE | Flags::NO_EXECUTE),
    ] {
        let (start, size) = (VirtAddr::from_ptr(from), to as u64 - from as u64);
        map_kernel::<Size4KiB>(&mut mapper, start, size, PhysAddr::new(start.as_u64() - KERNEL), flags, frames);
    }
    // SAFETY: all that the kernel uses is mapped now as it was.
    unsafe { Cr3::write(root, Cr3Flags::empty()) };
    mapper
}

/// Maps a part of memory for the kernel. The processor doesn't use the tables yet, so nothing needs a flush.
fn map_kernel<S: PageSize + Debug>(
    mapper: &mut OffsetPageTable,
    start: VirtAddr,
    size: u64,
    to: PhysAddr,
    flags: Flags,
    frames: &mut Frames,
) {
    let (page, frame) = (Page::<S>::containing_address(start), PhysFrame::containing_address(to));
    let (flags, parent_flags) = (Flags::PRESENT | flags, Flags::PRESENT | Flags::WRITABLE);
    // SAFETY: no processor uses the tables, and later code uses the pages as the kernel does now.
    unsafe { mapper.map_range(page, size.div_ceil(S::SIZE), frame, flags, parent_flags, frames) }
        .expect("map_range failed")
        .ignore();
}
