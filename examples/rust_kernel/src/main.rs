//! A kernel whose page tables are made by the crate x86_64_paging. It tries them out, and compares what the processor does with what
//! the crate says of each access.
#![no_std]
#![no_main]

// The heap is of four levels alone.
#[cfg(not(feature = "five_levels"))]
extern crate alloc;

#[cfg(not(feature = "five_levels"))]
mod allocator;
mod levels;
mod machine;
mod memory;
mod processes;

use levels::{root_mut, root_window, OffsetPageTable, Page, RecursivePageTable, VirtAddr, FIRST, HEAP};
use machine::StartInfo;
use memory::{Frames, DIRECT};
use x86_64::registers::control::Cr3;
use x86_64::structures::paging::mapper::{CleanUp, RangeMapper};
use x86_64::structures::paging::{
    FrameAllocator, FrameDeallocator, Mapper, PageTable, PageTableFlags as Flags, PhysFrame, Size2MiB, Size4KiB, Translate,
};
use x86_64_paging::access::{Access, AccessKind, Controls, Fault};
use x86_64_paging::kernel as x86_64;

const HEAP_PAGES: u64 = 600;

/// Called by boot.s with the address of what the loader tells.
#[unsafe(no_mangle)]
extern "C" fn kernel_main(start_info: u64) -> ! {
    machine::init();
    // SAFETY: boot.s has mapped the lowest GiB at DIRECT, and the loader has put this there.
    let info: &StartInfo = unsafe { &*(DIRECT + start_info).as_ptr() };
    // SAFETY: as above.
    let memory = unsafe { info.regions(DIRECT) };
    // SAFETY: nothing uses the memory behind the kernel.
    let mut frames = unsafe { Frames::new(memory) };
    println!("kernel: {} frames are free, the root of boot.s is {:?}", frames.free, Cr3::read().0);
    // SAFETY: tools/rust_kernel gives the machine less than a GiB, and this is called once.
    let mut mapper = unsafe { memory::init(memory, &mut frames) };
    println!("kernel: {} frames are free, the root is {:?}", frames.free, Cr3::read().0);
    for region in mapper.regions() {
        println!("  {region}");
    }
    one_page(&mut mapper, &mut frames);
    heap(&mut mapper, &mut frames);
    large_page(&mut mapper, &mut frames);
    clean_up(&mut mapper, &mut frames);
    println!("cleaned up: {} frames are free", frames.free);
    processes::processes(&mut mapper, &mut frames);
    recursive(&mut mapper, &mut frames);
    #[cfg(not(feature = "five_levels"))]
    collections(&mut mapper, &mut frames);
    machine::end(true)
}

/// Maps a page, changes its flags, and unmaps it.
fn one_page(mapper: &mut OffsetPageTable, frames: &mut Frames) {
    let page = Page::containing_address(FIRST);
    let frame = frames.allocate_frame().expect("no memory is left");
    touch(mapper, FIRST, None);
    // SAFETY: nothing uses the page or the frame.
    unsafe { mapper.map_to(page, frame, Flags::PRESENT | Flags::WRITABLE, frames) }.expect("map_to failed").flush();
    println!("{FIRST:#x} is mapped to {:?}", mapper.translate_addr(FIRST));
    touch(mapper, FIRST + 8, Some(0xfee1_600d));
    // SAFETY: the page and DIRECT lead to the same frame.
    println!("  at DIRECT: {:#x}", unsafe { *(DIRECT + frame.start_address().as_u64() + 8).as_ptr::<u64>() });
    // SAFETY: nothing but `touch` uses the page.
    unsafe { mapper.update_flags(page, Flags::PRESENT) }.expect("update_flags failed").flush();
    println!("{FIRST:#x} can't be written to");
    touch(mapper, FIRST + 8, None);
    touch(mapper, FIRST + 8, Some(1));
    let (frame, flush) = mapper.unmap(page).expect("unmap failed");
    flush.flush();
    // SAFETY: no page shows the frame any more.
    unsafe { frames.deallocate_frame(frame) };
    println!("{FIRST:#x} is unmapped");
    touch(mapper, FIRST + 8, None);
}

/// Maps many pages by one call, uses them, and unmaps them by one call.
fn heap(mapper: &mut OffsetPageTable, frames: &mut Frames) {
    let start = Page::<Size4KiB>::containing_address(HEAP);
    let flags = Flags::PRESENT | Flags::WRITABLE | Flags::NO_EXECUTE;
    let first = frames.take_range(HEAP_PAGES);
    let parent_flags = Flags::PRESENT | Flags::WRITABLE;
    // SAFETY: nothing uses the pages or the frames.
    unsafe { mapper.map_range(start, HEAP_PAGES, first, flags, parent_flags, frames) }.expect("map_range failed").flush();
    // SAFETY: the pages are mapped, and nothing else uses them.
    let words = unsafe { core::slice::from_raw_parts_mut(HEAP.as_mut_ptr::<u64>(), HEAP_PAGES as usize * 512) };
    (0..).zip(words.iter_mut()).for_each(|(k, word)| *word = k);
    println!("{HEAP_PAGES} pages are mapped at {HEAP:#x}: {} words, the sum {}", words.len(), words.iter().sum::<u64>());
    touch(mapper, HEAP + HEAP_PAGES * 4096 - 8, None);
    touch(mapper, HEAP + HEAP_PAGES * 4096, None);
    // So few pages are flushed one by one.
    unmap(mapper, frames, start, 20, first);
    unmap(mapper, frames, start + 20, HEAP_PAGES - 20, first + 20);
    println!("they are unmapped: {} frames are free", frames.free);
}

/// Unmaps pages by one call, and gives their frames, which follow each other, back after the flush.
fn unmap(mapper: &mut OffsetPageTable, frames: &mut Frames, start: Page, count: u64, frame: PhysFrame) {
    let some = [0, 1, count / 2, count - 1].map(|k| (start + k).start_address());
    for address in some {
        // So the processor has the page in its TLB, and nothing comes between that would take it out.
        assert!(machine::access(address, None).is_ok());
    }
    let mut unmapped = 0;
    // SAFETY: nothing but `touch` uses the pages any more.
    unsafe { mapper.unmap_range(start, count, |_| unmapped += 1) }.flush();
    for address in some {
        touch(mapper, address, None);
    }
    assert_eq!(unmapped, count);
    for k in 0..count {
        // SAFETY: no page shows the frame any more.
        unsafe { frames.deallocate_frame(frame + k) };
    }
}

/// Maps a page of 2 MiB.
fn large_page(mapper: &mut OffsetPageTable, frames: &mut Frames) {
    let page = Page::<Size2MiB>::containing_address(HEAP);
    let frame = PhysFrame::containing_address(Cr3::read().0.start_address());
    // The heap's table of level one is still there.
    for _ in 0..2 {
        // SAFETY: nothing writes by the page.
        let mapped = unsafe { mapper.map_to(page, frame, Flags::PRESENT, frames) };
        println!("2MiB at {HEAP:#x}: {:?}", mapped.map(|flush| flush.flush()));
        clean_up(mapper, frames);
    }
    touch(mapper, HEAP + 0x1f_fff8, None);
    mapper.unmap(page).expect("unmap failed").1.flush();
    touch(mapper, HEAP + 0x1f_fff8, None);
}

/// Removes the tables that are empty.
fn clean_up(mapper: &mut OffsetPageTable, frames: &mut Frames) {
    // SAFETY: nothing else leads to the tables, and their frames aren't used anew before the flush.
    unsafe { mapper.clean_up(frames) };
    x86_64::instructions::tlb::flush_all();
}

/// Maps a page by the mapper that reaches the tables through the root's entry for itself.
fn recursive(mapper: &mut OffsetPageTable, frames: &mut Frames) {
    const INDEX: u16 = 510;
    let (root, flags) = (Cr3::read().0, Flags::PRESENT | Flags::WRITABLE | Flags::NO_EXECUTE);
    root_mut(mapper)[usize::from(INDEX)].set_frame(root, flags);
    // SAFETY: the root is at its window now. The other mapper isn't used until this one is gone.
    let table: &mut PageTable = unsafe { &mut *root_window(INDEX.into()).as_mut_ptr() };
    println!("outside a window: {:?}", RecursivePageTable::new(&mut PageTable::new()).err());
    let mut windows = RecursivePageTable::new(table).expect("the table is in use, and at its window");
    let page = Page::containing_address(FIRST);
    let frame = frames.allocate_frame().expect("no memory is left");
    let mut kept = [None; 2];
    for turn in 0..2 {
        // SAFETY: nothing uses the page or the frame.
        unsafe { windows.map_to(page, frame, Flags::PRESENT | Flags::WRITABLE, frames) }.expect("map_to failed").flush();
        println!("{FIRST:#x} is mapped through windows to {:?}", windows.translate_addr(FIRST));
        // SAFETY: the page was mapped above, to a frame that nothing else uses.
        unsafe { FIRST.as_mut_ptr::<u64>().write_volatile(0xfee1_600d + turn) };
        // SAFETY: the page and DIRECT lead to the same frame.
        println!("  at DIRECT: {:#x}", unsafe { *(DIRECT + frame.start_address().as_u64()).as_ptr::<u64>() });
        windows.unmap(page).expect("unmap failed").1.flush();
        // SAFETY: nothing else leads to the tables, and this mapper flushes everything. The next tables are in other frames.
        unsafe { windows.clean_up(frames) };
        kept[turn as usize] = frames.allocate_frame();
    }
    for frame in [Some(frame)].iter().chain(&kept).flatten() {
        // SAFETY: no page shows the frame any more.
        unsafe { frames.deallocate_frame(*frame) };
    }
    root_mut(mapper)[usize::from(INDEX)].set_unused();
    x86_64::instructions::tlb::flush_all();
    println!("cleaned up: {} frames are free", frames.free);
}

/// Makes a heap for Rust's collections, and uses it up.
#[cfg(not(feature = "five_levels"))]
fn collections(mapper: &mut OffsetPageTable, frames: &mut Frames) {
    use alloc::{boxed::Box, collections::BTreeMap, vec::Vec};
    touch(mapper, allocator::START, None);
    // SAFETY: nothing else uses these addresses, and nothing was allocated before.
    unsafe { allocator::init(mapper, frames) }.expect("no memory is left");
    let words: Vec<u64> = (0..1000).collect();
    let squares: BTreeMap<u64, Box<u64>> = words.iter().map(|word| (word * word, Box::new(*word))).collect();
    println!("a heap of {} KiB holds {} words, and {} squares", allocator::SIZE / 1024, words.len(), squares.len());
    assert!(squares.iter().zip(&words).all(|((square, root), word)| **root == *word && *square == word * word));
    // What doesn't fit is refused.
    assert!(Vec::<u8>::new().try_reserve(allocator::SIZE as usize).is_err());
    touch(mapper, allocator::START + (allocator::SIZE - 8), None);
    touch(mapper, allocator::START + allocator::SIZE, None);
}

/// Reads at an address, or writes a value there. Prints where this arrives, or with which error code it faults, and compares this with
/// what the crate says.
fn touch(mapper: &OffsetPageTable, address: VirtAddr, written: Option<u64>) {
    let kind = if written.is_some() { AccessKind::Write } else { AccessKind::Read };
    let controls = Controls { write_protect: true, no_execute: true, smep: false, smap: false, ac: false, physical_bits: 40, no_1gib_pages: false, global_reserved: false };
    let said = mapper.access(address, Access { kind, user: false }, &controls);
    match (said, machine::access(address, written)) {
        (Ok(at), Ok(())) => println!("  {kind:?} at {address:#x}: arrives at {at:#x}"),
        (Err(Fault::PageFault { code, .. }), Err(found)) if code == found => {
            println!("  {kind:?} at {address:#x}: page fault, {code:?}")
        }
        (said, found) => panic!("{kind:?} at {address:#x}: {found:?}, but the crate says {said:?}"),
    }
}
