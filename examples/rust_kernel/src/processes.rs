//! Address spaces that share the kernel's half: one is made for each process, used, and given up.

use crate::levels::{OffsetPageTable, Page, VirtAddr, FIRST, LAST};
use crate::memory::{Frames, DIRECT};
use crate::{println, touch};
use x86_64::registers::control::{Cr3, Cr3Flags};
use x86_64::structures::paging::mapper::CleanUp;
use x86_64::structures::paging::{FrameAllocator, FrameDeallocator, Mapper, PageTableFlags as Flags, PhysFrame};
use x86_64::{SharedIndices, Space};
use x86_64_paging::kernel as x86_64;

/// A process: the root of its space, and the frame of its one page.
struct Process {
    root: PhysFrame,
    frame: PhysFrame,
}

/// The page that each process has.
fn page() -> Page {
    Page::containing_address(FIRST)
}

/// Lets two processes have the same page, each with a frame of its own.
pub fn processes(kernel: &mut OffsetPageTable, frames: &mut Frames) {
    let kernel_root = Cr3::read().0;
    let all = [0x11, 0x22].map(|word| start(kernel, frames, word));
    for process in [&all[0], &all[1], &all[0]] {
        // SAFETY: the kernel's half, where all is that is used, is the same in each space.
        unsafe { Cr3::write(process.root, Cr3Flags::empty()) };
        // SAFETY: the page is mapped in this space, and nothing else uses it.
        let word = unsafe { FIRST.as_ptr::<u64>().read_volatile() };
        println!("with the root {:?}, {FIRST:#x} holds {word:#x}", process.root);
        touch(&mapper_of(process), FIRST, None);
    }
    // The first process loses its page while the processor uses its root.
    let (frame, flush) = mapper_of(&all[0]).unmap(page()).expect("unmap failed");
    flush.flush();
    touch(&mapper_of(&all[0]), FIRST, None);
    assert_eq!(frame, all[0].frame);
    // SAFETY: as above.
    unsafe { Cr3::write(kernel_root, Cr3Flags::empty()) };
    touch(kernel, FIRST, None);
    for process in all {
        end(kernel, frames, process);
    }
    println!("two spaces were given up: {} frames are free", frames.free);
}

/// Starts a process whose page holds a word.
fn start(kernel: &mut OffsetPageTable, frames: &mut Frames, word: u64) -> Process {
    let frame = frames.allocate_frame().expect("no memory is left");
    // SAFETY: nothing else uses the frame, which is mapped at DIRECT.
    unsafe { *(DIRECT + frame.start_address().as_u64()).as_mut_ptr() = word };
    // SAFETY: the tables of the kernel's half that the root names are never removed, and no others are made.
    let root = unsafe { kernel.new_space(SharedIndices::UPPER_HALF, None, frames) }.expect("no memory is left");
    let process = Process { root, frame };
    // SAFETY: no processor uses the root yet, and nothing else uses the frame.
    unsafe { mapper_of(&process).map_to(page(), frame, Flags::PRESENT | Flags::WRITABLE, frames) }.expect("map_to failed").ignore();
    process
}

/// Returns a mapper for a process.
fn mapper_of(process: &Process) -> OffsetPageTable<'static> {
    // SAFETY: all memory is mapped at DIRECT, and this file has one mapper of each process at a time.
    unsafe { OffsetPageTable::new(&mut *(DIRECT + process.root.start_address().as_u64()).as_mut_ptr(), DIRECT) }
}

/// Ends a process, whose root isn't in CR3.
fn end(kernel: &mut OffsetPageTable, frames: &mut Frames, process: Process) {
    let mut mapper = mapper_of(&process);
    // No processor has cached anything of this space: CR3 was loaded since.
    if let Ok((_, flush)) = mapper.unmap(page()) {
        flush.ignore();
    }
    let own_half = Page::range_inclusive(Page::containing_address(VirtAddr::zero()), Page::containing_address(LAST));
    // SAFETY: the tables of this half are of this space alone, and no processor has cached them. After that no mapper of it is left.
    unsafe {
        mapper.clean_up_addr_range(own_half, frames);
        let space = Space { root: process.root, recursive: None };
        kernel.give_up_space(&space, SharedIndices::UPPER_HALF, frames).expect("give_up_space failed");
        frames.deallocate_frame(process.frame);
    }
}
