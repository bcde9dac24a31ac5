//! Maps a page, looks it up, lists it, unmaps it, and frees the tables that are empty then: `examples/c/first.c` in Rust. It prints the same
//! lines.

use x86_64_paging::structures::paging::mapper::{CleanUp, MappedFrame, TranslateResult};
use x86_64_paging::structures::paging::{MappedPageTable, Mapper, Page, PageTable, PageTableFlags as Flags, PhysFrame, Translate};
use x86_64_paging::{
    mappings, page_walk, pool_fits_by_marks, FourLevels, LentMemory, LentPool, OwnFrames, PhysAddr, ShiftMapping, TableMemory,
    VirtAddr,
};

/// The number of tables, which are in the frames 0x1000 to 0x4000.
const TABLES: usize = 4;
/// The frame of the first table, by its number.
const FIRST: u64 = 1;

/// Prints all words that aren't 0.
fn print_words(memory: &LentMemory) {
    for n in 0..TABLES {
        let table = memory.place_at(n).and_then(|place| memory.table(place)).expect("a table");
        for (index, entry) in table.iter().enumerate().filter(|(_, entry)| !entry.is_unused()) {
            println!("word {:#x} {index} {:#x}", (1 + n) * 4096, entry.word());
        }
    }
}

/// Prints the free frames in the order in which they are handed out.
fn print_pool(frames: &[u64], free: usize) {
    let frames: String = frames[..free].iter().rev().map(|frame| format!(" {frame:#x}")).collect();
    println!("pool{frames}");
}

/// Prints what an address is mapped to.
fn translate(mapper: &impl Translate, address: VirtAddr) {
    match mapper.translate(address) {
        TranslateResult::Mapped { frame, offset, flags } => {
            let size = match frame {
                MappedFrame::Size4KiB(_) => "4KiB",
                MappedFrame::Size2MiB(_) => "2MiB",
                MappedFrame::Size1GiB(_) => "1GiB",
            };
            println!("translate {address:#x}: mapped {size} {:#x} {offset:#x} {:#x}", frame.start_address(), flags.bits());
        }
        _ => println!("translate {address:#x}: not mapped"),
    }
}

/// Prints where the processor arrives from an address.
fn walk(memory: &LentMemory, mapping: &ShiftMapping, root: PhysFrame, address: VirtAddr) {
    match page_walk(memory, mapping, root, address) {
        Some(walked) => {
            let (write, user) = (u8::from(walked.write), u8::from(walked.user));
            println!("walk {address:#x}: {:#x} write={write} user={user}", walked.address);
        }
        None => println!("walk {address:#x}: none"),
    }
}

fn main() {
    let mut tables = [const { PageTable::new() }; TABLES];
    // The free frames: the last one is handed out first.
    let (mut frames, mut free) = ([0x4000, 0x3000, 0x2000, 0], 3);
    let (mut memory, mapping) = (LentMemory::new(&mut tables), ShiftMapping::new(FIRST));
    let root = PhysFrame::containing_address(PhysAddr::new(0x1000));
    assert!(pool_fits_by_marks::<FourLevels, _, _>(&memory, &mapping, root, &frames[..free], frames.len(), &mut [false; TABLES]));
    print_pool(&frames, free);

    let page: Page = Page::containing_address(VirtAddr::new(0x1000));
    let frame = PhysFrame::containing_address(PhysAddr::new(0x5000));
    let mut mapper = MappedPageTable::new(&mut memory, root, mapping);
    let mut pool = LentPool::new(&mut frames, &mut free, OwnFrames::of());
    mapper.map_to(page, frame, Flags::PRESENT | Flags::WRITABLE, &mut pool).expect("map_to failed").ignore();
    println!("map 4KiB 0x1000: done");
    print_words(&memory);
    print_pool(&frames, free);

    translate(&MappedPageTable::new(&mut memory, root, mapping), VirtAddr::new(0x1abc));
    walk(&memory, &mapping, root, VirtAddr::new(0x1abc));
    translate(&MappedPageTable::new(&mut memory, root, mapping), VirtAddr::new(0x2000));
    for found in mappings(&memory, &mapping, root) {
        println!("listed {found}");
    }

    let mut mapper = MappedPageTable::new(&mut memory, root, mapping);
    let (frame, flush) = mapper.unmap(page).expect("unmap failed");
    flush.ignore();
    println!("unmap 4KiB 0x1000: {:#x}", frame.start_address());
    walk(&memory, &mapping, root, VirtAddr::new(0x1abc));

    let mut mapper = MappedPageTable::new(&mut memory, root, mapping);
    mapper.clean_up(&mut LentPool::new(&mut frames, &mut free, OwnFrames::of()));
    println!("clean up: done");
    print_words(&memory);
    print_pool(&frames, free);
}
