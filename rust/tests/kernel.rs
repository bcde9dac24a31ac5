//! The mapper of a kernel, over memory of the test: it leaves the same words as the mapper over a memory that is lent.
#![cfg(all(feature = "instructions", target_arch = "x86_64"))]

use x86_64::structures::paging::mapper::{
    CleanUp, CleanUpBelowRoot, InvalidPageTable, MapToError, MapperAllSizes, PageTableFrameMapping, RangeMapper, TranslateError,
    UnmapError,
};
use x86_64::structures::paging::{
    FrameAllocator, FrameDeallocator, MappedPageTable, MappedPageTable57, Mapper, OffsetPageTable, OffsetPageTable57, Page, Page57,
    PageTable, PageTableFlags as Flags, PhysFrame, RecursivePageTable, RecursivePageTable57, Size1GiB, Size2MiB, Size4KiB,
    Translate,
};
use x86_64::{DirectMap, GiveUpError, PhysAddr, SharedIndices, Space, VirtAddr, VirtAddr57};
use x86_64_paging::access::{Access, AccessKind, Controls, Fault};
use x86_64_paging::kernel as x86_64;
use x86_64_paging::structures::paging as data;
use x86_64_paging::{
    is_valid_by_marks, roots_fit_by_marks, FiveLevels, FourLevels, FramePlace, IdentityMapping, LentMemory, LentPool, OwnFrames,
    TableMemory,
};

const FRAMES: usize = 16;
const BOTH: Flags = Flags::PRESENT.union(Flags::WRITABLE);

/// Free frames of the tests' own memory; the last one is handed out first.
struct Free(Vec<PhysFrame>);

impl Free {
    fn new(numbers: std::ops::Range<u64>) -> Free {
        Free(numbers.rev().map(PhysFrame::from_pfn).collect())
    }
}

// SAFETY: each frame is in the list once, until it is handed out.
unsafe impl FrameAllocator<Size4KiB> for Free {
    fn allocate_frame(&mut self) -> Option<PhysFrame> {
        self.0.pop()
    }
}

impl FrameDeallocator<Size4KiB> for Free {
    unsafe fn deallocate_frame(&mut self, frame: PhysFrame) {
        self.0.push(frame);
    }
}

/// Frames at an index of tables.
struct At(*mut PageTable);

// SAFETY: the tests ask for frames of their tables.
unsafe impl PageTableFrameMapping for At {
    fn frame_to_pointer(&self, frame: PhysFrame) -> *mut PageTable {
        self.0.wrapping_add(frame.pfn() as usize)
    }
}

fn tables() -> Vec<PageTable> {
    (0..FRAMES).map(|_| PageTable::new()).collect()
}

/// Makes calls by a mapper for kernels with the frames from 0x2000 on, and returns what is free then.
fn calls<M: MapperAllSizes + Translate + CleanUp>(mapper: &mut M) -> Vec<u64> {
    let mut pool = Free::new(2..FRAMES as u64);
    for n in 0..600 {
        let page = Page::<Size4KiB>::containing_address(VirtAddr::new(0xffff_8000_0000_0000 + n * 4096));
        let frame = PhysFrame::containing_address(PhysAddr::new(0x10_0000 + n * 4096));
        // SAFETY: no processor uses the tables.
        unsafe { mapper.map_to(page, frame, BOTH, &mut pool) }.expect("a frame is free").ignore();
        assert_eq!(mapper.translate_addr(page.start_address() + 5), Some(frame.start_address() + 5));
        if n % 3 == 0 {
            // SAFETY: as above.
            unsafe { mapper.update_flags(page, Flags::PRESENT) }.expect("the page is mapped").ignore();
        } else if n >= 512 {
            mapper.unmap(page).expect("the page is mapped").1.ignore();
        }
    }
    let large = Page::<Size2MiB>::containing_address(VirtAddr::new(0x20_0000));
    let frame = PhysFrame::containing_address(PhysAddr::new(0x4000_0000));
    // SAFETY: as above, and nothing else leads to the tables.
    unsafe {
        mapper.map_to(large, frame, BOTH, &mut pool).expect("a frame is free").ignore();
        assert_eq!(mapper.map_to(large, frame, BOTH, &mut pool).err(), Some(MapToError::PageAlreadyMapped(frame)));
        mapper.unmap(large).expect("the page is mapped").1.ignore();
        mapper.clean_up(&mut pool);
    }
    pool.0.iter().map(|frame| frame.start_address().as_u64()).collect()
}

/// Makes the same calls by a mapper on data.
fn calls_on_data<M: data::mapper::MapperAllSizes + data::Translate + data::mapper::CleanUp>(mapper: &mut M) -> Vec<u64> {
    let mut frames: Vec<u64> = (2..FRAMES as u64).rev().map(|n| n * 4096).collect();
    let mut free = frames.len();
    let mut pool = LentPool::new(&mut frames, &mut free, OwnFrames::of());
    let flags = Flags::PRESENT | Flags::WRITABLE;
    for n in 0..600 {
        let page = Page::<Size4KiB>::containing_address(VirtAddr::new(0xffff_8000_0000_0000 + n * 4096));
        let frame = PhysFrame::containing_address(PhysAddr::new(0x10_0000 + n * 4096));
        mapper.map_to(page, frame, flags, &mut pool).expect("a frame is free").ignore();
        assert_eq!(mapper.translate_addr(page.start_address() + 5), Some(frame.start_address() + 5));
        if n % 3 == 0 {
            mapper.update_flags(page, Flags::PRESENT).expect("the page is mapped").ignore();
        } else if n >= 512 {
            mapper.unmap(page).expect("the page is mapped").1.ignore();
        }
    }
    let large = Page::<Size2MiB>::containing_address(VirtAddr::new(0x20_0000));
    let frame = PhysFrame::containing_address(PhysAddr::new(0x4000_0000));
    mapper.map_to(large, frame, flags, &mut pool).expect("a frame is free").ignore();
    assert_eq!(mapper.map_to(large, frame, flags, &mut pool).err(), Some(MapToError::PageAlreadyMapped(frame)));
    mapper.unmap(large).expect("the page is mapped").1.ignore();
    mapper.clean_up(&mut pool);
    frames[..free].to_vec()
}

/// Returns the words of a table.
fn words(table: &PageTable) -> Vec<u64> {
    table.iter().map(|entry| entry.word()).collect()
}

#[test]
fn the_mappers_of_a_kernel_leave_the_same_words() {
    let mut lent = tables();
    let mut memory = LentMemory::new(&mut lent);
    let root = PhysFrame::containing_address(PhysAddr::new(0x1000));
    let wanted_free = calls_on_data(&mut data::MappedPageTable::new(&mut memory, root, IdentityMapping));

    let mut tables = tables();
    let start = tables.as_mut_ptr();
    // SAFETY: `tables` is the memory from frame 0 on, and nothing else uses it while the mapper lives. All frames of tables are in it.
    let mut mapper = unsafe { OffsetPageTable::new(&mut *start.add(1), VirtAddr::from_ptr(start)) };
    assert_eq!(mapper.phys_offset(), VirtAddr::from_ptr(start));
    assert_eq!(calls(&mut mapper), wanted_free);
    assert_eq!(mapper.mappings_from(VirtAddr::zero()).count(), 512 + 29);
    assert_eq!(mapper.level_4_table().iter().filter(|entry| !entry.is_unused()).count(), 1);
    assert_eq!(format!("{mapper:?}"), "OffsetPageTable { .. }");
    assert!(tables.iter().zip(&lent).all(|(table, wanted)| words(table) == words(wanted)));

    let mut others = self::tables();
    let start = others.as_mut_ptr();
    let mapping = At(start);
    // SAFETY: as above.
    let mut mapper = unsafe { MappedPageTable::new(&mut *start.add(1), &mapping) };
    assert_eq!(calls(&mut mapper), wanted_free);
    assert_eq!(mapper.page_table_frame_mapping().0, start);
    assert_eq!(mapper.regions().count(), 171 + 171 + 29);
    assert!(others.iter().zip(&lent).all(|(table, wanted)| words(table) == words(wanted)));
}

#[test]
fn the_root_is_where_it_is_lent_and_not_at_the_offset() {
    let mut tables = tables();
    let mut root = PageTable::new();
    let start = tables.as_mut_ptr();
    // SAFETY: as above; the root is beside the memory.
    let mut mapper = unsafe { OffsetPageTable::new(&mut root, VirtAddr::from_ptr(start)) };
    let (page, frame) = (Page::<Size4KiB>::containing_address(VirtAddr::new(0x7000)), PhysFrame::from_pfn(77));
    // SAFETY: no processor uses the tables.
    unsafe { mapper.map_to(page, frame, BOTH, &mut Free::new(1..4)) }.expect("a frame is free").ignore();
    assert_eq!(mapper.translate_page(page), Ok(frame));
    let controls = Controls {
        write_protect: true,
        no_execute: true,
        smep: false,
        smap: false,
        ac: false,
        physical_bits: 40,
        no_1gib_pages: false,
        global_reserved: false,
    };
    let read = Access { kind: AccessKind::Read, user: false };
    assert_eq!(mapper.access(VirtAddr::new(0x7abc), read, &controls).ok(), Some(PhysAddr::new(0x4dabc)));
    assert!(matches!(mapper.access(VirtAddr::new(0x8abc), read, &controls), Err(Fault::PageFault { .. })));
    assert_eq!(root[0].addr(), PhysAddr::new(0x1000));
}

#[test]
fn calls_of_each_size_are_refused_as_on_data() {
    let mut tables = tables();
    let start = tables.as_mut_ptr();
    // SAFETY: as above.
    let mut mapper = unsafe { OffsetPageTable::new(&mut *start.add(1), VirtAddr::from_ptr(start)) };
    let (small, large) =
        (Page::<Size4KiB>::containing_address(VirtAddr::zero()), Page::<Size2MiB>::containing_address(VirtAddr::zero()));
    let giant = Page::<Size1GiB>::containing_address(VirtAddr::zero());
    // SAFETY: no processor uses the tables.
    unsafe {
        assert_eq!(
            mapper.map_to(small, PhysFrame::from_pfn(9), BOTH, &mut Free::new(2..4)).err(),
            Some(MapToError::FrameAllocationFailed)
        );
        assert_eq!(mapper.map_to(giant, PhysFrame::from_pfn(0), BOTH, &mut Free::new(4..5)).err().map(|_| ()), Some(()));
        mapper
            .identity_map(PhysFrame::<Size2MiB>::containing_address(PhysAddr::new(0x20_0000)), BOTH, &mut Free::new(5..6))
            .expect("no frame is needed")
            .ignore();
        assert_eq!(mapper.translate_addr(VirtAddr::new(0x20_1234)), Some(PhysAddr::new(0x20_1234)));
        mapper.set_flags_p4_entry(small, Flags::PRESENT).expect("the entry is used").ignore();
        mapper.set_flags_p3_entry(small, Flags::PRESENT).expect("the entry is used").ignore();
        assert!(mapper.set_flags_p2_entry(small, Flags::PRESENT).is_err());
    }
    assert_eq!(mapper.unmap(large).err(), Some(UnmapError::PageNotMapped));
    assert_eq!(mapper.translate_page(large), Err(TranslateError::PageNotMapped));
    assert_eq!(mapper.level_4_table()[0].flags(), Flags::PRESENT);
}

#[test]
fn ranges_are_mapped_and_unmapped() {
    let mut tables = tables();
    let start = tables.as_mut_ptr();
    // SAFETY: as above.
    let mut mapper = unsafe { OffsetPageTable::new(&mut *start.add(1), VirtAddr::from_ptr(start)) };
    let (first, mut free) = (Page::<Size4KiB>::containing_address(VirtAddr::new(0x1ff_000)), Free::new(2..FRAMES as u64));
    // SAFETY: no processor uses the tables.
    unsafe {
        mapper.map_range(first, 700, PhysFrame::from_pfn(100), BOTH, BOTH, &mut free).expect("frames are free").ignore();
        let (changed, flush) = mapper.update_flags_range(first, 800, Flags::PRESENT);
        assert_eq!((changed, flush.count()), (700, 800));
        flush.ignore();
        let mut taken = Vec::new();
        mapper.unmap_range(first, 800, |frame| taken.push(frame.pfn())).ignore();
        assert_eq!(taken, (100..800).collect::<Vec<u64>>());
        mapper.clean_up(&mut free);
    }
    assert_eq!(free.0.len(), FRAMES - 2);
}

#[test]
fn the_mapper_of_a_kernel_has_five_levels() {
    let mut tables = tables();
    let start = tables.as_mut_ptr();
    // SAFETY: as above.
    let mut mapper = unsafe { OffsetPageTable57::new(&mut *start.add(1), VirtAddr57::new(start as u64)) };
    let page = Page57::<Size4KiB>::containing_address(VirtAddr57::new(0x12_3456_7890_1000));
    let (frame, mut pool) = (PhysFrame::containing_address(PhysAddr::new(0x9000)), Free::new(2..6));
    // SAFETY: no processor uses the tables, and nothing else leads to them.
    unsafe {
        mapper.map_to(page, frame, Flags::PRESENT, &mut pool).expect("a frame is free").ignore();
        mapper.set_flags_p5_entry(page, BOTH).expect("the entry is used").ignore();
    }
    assert_eq!(mapper.translate_addr(page.start_address() + 7), Some(frame.start_address() + 7));
    assert_eq!(mapper.level_5_table().iter().filter(|entry| entry.flags() == BOTH).count(), 1);
    assert_eq!(mapper.regions().count(), 1);
    mapper.unmap(page).expect("the page is mapped").1.ignore();
    // SAFETY: as above.
    unsafe { mapper.clean_up(&mut pool) };
    assert_eq!(pool.0.len(), 4);
    assert!(tables.iter().all(|table| table.is_empty()));
}

/// A page of the half that spaces share, and one of the other half, where each has its own.
fn shared_and_own() -> (Page, Page) {
    let page = |address| Page::containing_address(VirtAddr::new(address));
    (page(0xffff_8000_0000_0000), page(0x7000))
}

#[test]
fn a_new_space_shares_a_half_and_is_given_up() {
    let mut tables = tables();
    let start = tables.as_mut_ptr();
    let (shared, own) = shared_and_own();
    let half = SharedIndices::UPPER_HALF;
    let mut free = Free::new(2..FRAMES as u64);
    // SAFETY: `tables` is the memory from frame 0 on. No processor uses the tables, and each root has one mapper.
    let mut kernel = unsafe { OffsetPageTable::new(&mut *start.add(1), VirtAddr::from_ptr(start)) };
    // SAFETY: as above. The shared entry that is used is there before the space is made.
    let (before, root) = unsafe {
        kernel.map_to(shared, PhysFrame::from_pfn(77), BOTH, &mut free).expect("frames are free").ignore();
        let before = free.0.clone();
        (before, kernel.new_space(half, None, &mut free).expect("a frame is free"))
    };
    assert_eq!(root, PhysFrame::from_pfn(5));
    let space = Space { root, recursive: None };
    // SAFETY: as above.
    let mut process = unsafe { OffsetPageTable::new(&mut *start.add(5), VirtAddr::from_ptr(start)) };
    // SAFETY: as above.
    unsafe { process.map_to(own, PhysFrame::from_pfn(88), BOTH, &mut free) }.expect("frames are free").ignore();
    assert_eq!(
        (kernel.translate_page(own), process.translate_page(own)),
        (Err(TranslateError::PageNotMapped), Ok(PhysFrame::from_pfn(88)))
    );
    // SAFETY: as above; the page's table is there, so no entry of a root changes.
    unsafe { kernel.map_to(shared + 1, PhysFrame::from_pfn(99), BOTH, &mut free) }.expect("no frame is needed").ignore();
    assert_eq!(process.translate_page(shared + 1), Ok(PhysFrame::from_pfn(99)));
    // SAFETY: as above; the process has a table, so it isn't given up.
    assert_eq!(unsafe { kernel.give_up_space(&space, half, &mut free) }, Err(GiveUpError::EntryUsed));

    // Below the shared entry, which stays, tables come and go for both.
    let far = shared + (1 << 18);
    let (entry, left) = (kernel.level_4_table()[256].word(), free.0.len());
    // SAFETY: as above; no entry of a root changes.
    unsafe { kernel.map_to(far, PhysFrame::from_pfn(66), BOTH, &mut free) }.expect("frames are free").ignore();
    assert_eq!((process.translate_page(far), free.0.len()), (Ok(PhysFrame::from_pfn(66)), left - 2));
    kernel.unmap(far).expect("the page is mapped").1.ignore();
    let kernels_half = Page::range_inclusive(shared, Page::containing_address(VirtAddr::new(0xffff_ffff_ffff_f000)));
    // SAFETY: as above; one entry alone names each table below the shared one.
    unsafe { kernel.clean_up_below_root(kernels_half, &mut free) };
    assert_eq!((kernel.level_4_table()[256].word(), free.0.len()), (entry, left));
    assert_eq!(process.translate_page(shared), Ok(PhysFrame::from_pfn(77)));

    process.unmap(own).expect("the page is mapped").1.ignore();
    let own_half = Page::range_inclusive(
        Page::containing_address(VirtAddr::zero()),
        Page::containing_address(VirtAddr::new(0x7fff_ffff_f000)),
    );
    // SAFETY: as above; only the process has the tables of its half, and its mapper isn't used any more.
    unsafe {
        process.clean_up_addr_range(own_half, &mut free);
        assert_eq!(kernel.give_up_space(&space, half, &mut free), Ok(()));
    }
    let sorted = |frames: &[PhysFrame]| {
        let mut numbers: Vec<u64> = frames.iter().map(|frame| frame.pfn()).collect();
        numbers.sort();
        numbers
    };
    assert_eq!(sorted(&free.0), sorted(&before));
    assert_eq!(kernel.translate_page(shared), Ok(PhysFrame::from_pfn(77)));
    assert!(tables[5].is_empty());
}

#[test]
fn spaces_of_a_kernel_are_the_words_of_spaces_on_data() {
    let half = SharedIndices::UPPER_HALF;
    let mut lent = tables();
    // The template has an entry that isn't shared, and the new root's frame isn't cleared.
    lent[1][3].set_frame(PhysFrame::from_pfn(4), BOTH);
    lent[3].iter_mut().for_each(|entry| entry.set_frame(PhysFrame::from_pfn(9), BOTH));
    lent[1][300].set_frame(PhysFrame::from_pfn(2), BOTH);
    let mut tables: Vec<PageTable> = lent.clone();
    let index = Some(data::PageTableIndex::new(7));

    let mut memory = LentMemory::new(&mut lent);
    let (mut frames, mut free) = ([0x3000, 0], 1);
    let mut pool = LentPool::new(&mut frames, &mut free, OwnFrames::of());
    let template = Space { root: PhysFrame::from_pfn(1), recursive: None };
    let made = x86_64_paging::new_space::<FourLevels, _, _, _>(&mut memory, &IdentityMapping, &template, half, index, &mut pool);

    let start = tables.as_mut_ptr();
    // SAFETY: as above.
    let mut mapper = unsafe { MappedPageTable::new(&mut *start.add(1), At(start)) };
    let mut none = Free::new(0..0);
    // SAFETY: as above.
    unsafe {
        assert_eq!(mapper.new_space(half, index, &mut none), None);
        assert_eq!(mapper.new_space(half, index, &mut Free::new(3..4)), made);
    }
    assert_eq!(made, Some(PhysFrame::from_pfn(3)));
    assert!(tables.iter().zip(&lent).all(|(table, wanted)| words(table) == words(wanted)));
    assert_eq!((tables[3][7].addr(), tables[3][300].addr()), (PhysAddr::new(0x3000), PhysAddr::new(0x2000)));
    assert_eq!(tables[3].iter().filter(|entry| !entry.is_unused()).count(), 2);
}

#[test]
fn spaces_have_five_levels_too() {
    let mut tables = tables();
    let start = tables.as_mut_ptr();
    let page = Page57::<Size4KiB>::containing_address(VirtAddr57::new(0xff34_5678_9012_3000));
    let half = SharedIndices::UPPER_HALF;
    let mut free = Free::new(2..FRAMES as u64);
    // SAFETY: as above.
    let mut kernel = unsafe { MappedPageTable57::new(&mut *start.add(1), At(start)) };
    // SAFETY: as above; frame 0 is free, too.
    unsafe {
        kernel.map_to(page, PhysFrame::from_pfn(77), BOTH, &mut free).expect("frames are free").ignore();
        assert_eq!(kernel.new_space(half, None, &mut free), Some(PhysFrame::from_pfn(6)));
        let zero = Space { root: PhysFrame::from_pfn(0), recursive: None };
        assert_eq!(kernel.give_up_space(&zero, half, &mut free), Err(GiveUpError::FrameZero));
    }
    let left: Vec<u64> = free.0.iter().map(|frame| frame.start_address().as_u64()).collect();
    let (memory, mut marks) = (LentMemory::new(&mut tables), [false; FRAMES]);
    assert!(roots_fit_by_marks::<FiveLevels, _, _>(&memory, &IdentityMapping, &[0x1000, 0x6000], half, &left, FRAMES, &mut marks));
}

#[test]
#[cfg(debug_assertions)]
#[should_panic]
fn a_mapper_gives_up_other_spaces() {
    let mut tables = tables();
    let start = tables.as_mut_ptr();
    // SAFETY: as above.
    let mut mapper = unsafe { OffsetPageTable::new(&mut *start.add(1), VirtAddr::from_ptr(start)) };
    let space = Space { root: PhysFrame::from_pfn(1), recursive: None };
    // SAFETY: it panics.
    let _ = unsafe { mapper.give_up_space(&space, SharedIndices::UPPER_HALF, &mut Free::new(0..0)) };
}

#[test]
fn a_table_outside_a_window_makes_no_recursive_mapper() {
    let mut table = PageTable::new();
    assert!(matches!(RecursivePageTable::new(&mut table), Err(InvalidPageTable::NotRecursive)));
    assert!(matches!(RecursivePageTable57::new(&mut table), Err(InvalidPageTable::NotRecursive)));
}

/// Tables that are seen at windows, as a processor with a recursive entry shows them: pages of one memory at several addresses.
#[cfg(target_os = "linux")]
mod windows {
    use super::*;
    use std::ffi::{c_char, c_int, c_long, c_uint, c_void};

    const INDEX: u16 = 66;

    unsafe extern "C" {
        fn memfd_create(name: *const c_char, flags: c_uint) -> c_int;
        fn ftruncate(file: c_int, length: c_long) -> c_int;
        fn mmap(at: *mut c_void, length: usize, rights: c_int, flags: c_int, file: c_int, from: c_long) -> *mut c_void;
    }

    /// Shows a frame of a file at an address.
    fn show(file: c_int, frame: u64, at: VirtAddr) -> *mut PageTable {
        const READ_WRITE: c_int = 3;
        const SHARED_FIXED_NEW: c_int = 0x10_0001;
        // SAFETY: this takes no address that is in use.
        let table = unsafe { mmap(at.as_mut_ptr(), 4096, READ_WRITE, SHARED_FIXED_NEW, file, 4096 * frame as c_long) };
        assert_eq!(table as u64, at.as_u64(), "the address is in use");
        table.cast()
    }

    /// Returns the window of a table, given the indices that lead to it.
    fn window(path: &[u16]) -> VirtAddr {
        let indices = [&[INDEX; 4][path.len()..], path].concat();
        VirtAddr::new(indices.iter().fold(0, |number, index| 512 * number + u64::from(*index)) * 4096)
    }

    #[test]
    fn tables_are_reached_at_windows() {
        // SAFETY: the file is new.
        let file = unsafe { memfd_create(c"tables".as_ptr(), 0) };
        // SAFETY: as above.
        assert_eq!(unsafe { ftruncate(file, 4096 * 5) }, 0);
        // The frames 2, 3 and 4 become the tables on the path of the page, and are at their windows from the start.
        let path = [3, 1, 4, 15];
        let at = [0, 1, 2, 3].map(|length| show(file, 1 + length as u64, window(&path[..length])));
        // SAFETY: nothing else uses the memory.
        let root = unsafe { &mut *at[0] };
        root[usize::from(INDEX)].set_frame(PhysFrame::from_pfn(1), BOTH);
        // SAFETY: the windows show what a processor would show there.
        let mut mapper = unsafe { RecursivePageTable::new_unchecked(root, index_of(INDEX)) };
        let [p4, p3, p2, p1] = path.map(index_of);
        let page = Page::from_page_table_indices(p4, p3, p2, p1);
        let frame = PhysFrame::from_pfn(77);
        // SAFETY: no processor uses the tables.
        unsafe { mapper.map_to(page, frame, Flags::PRESENT, &mut Free::new(2..5)) }.expect("frames are free").ignore();
        assert_eq!(mapper.translate_page(page), Ok(frame));
        assert_eq!(mapper.translate_addr(page.start_address() + 9), Some(frame.start_address() + 9));
        assert_eq!(mapper.level_4_table()[p4].addr(), PhysAddr::new(0x2000));
        // SAFETY: as above.
        unsafe { mapper.update_flags(page, BOTH) }.expect("the page is mapped").ignore();
        // SAFETY: as above; the mapper isn't used meanwhile.
        let entry = unsafe { (&(*at[3]))[p1].clone() };
        assert_eq!((entry.addr(), entry.flags()), (frame.start_address(), BOTH));
        assert_eq!(mapper.unmap(page).expect("the page is mapped").0, frame);
        assert_eq!(mapper.translate_page(page), Err(TranslateError::PageNotMapped));
    }

    fn index_of(index: u16) -> data::PageTableIndex {
        data::PageTableIndex::new(index)
    }
}

#[test]
fn a_direct_map_has_the_places_of_its_ranges() {
    let mut tables = tables();
    // SAFETY: nothing else uses `tables` while the memory lives.
    let memory = unsafe { DirectMap::new(tables.as_mut_ptr(), &[(1, 4), (8, 10)]) };
    let numbers: Vec<u64> = (0..memory.len()).map(|n| memory.place_at(n).expect("a place").number()).collect();
    assert_eq!(numbers, [1, 2, 3, 8, 9]);
    assert!(memory.place_at(5).is_none());
    for n in 0..FRAMES as u64 {
        let place = FramePlace::new(n);
        assert_eq!(memory.table(place).is_some(), numbers.contains(&n));
        assert_eq!(memory.index_of(place), numbers.iter().position(|number| *number == n));
    }
}

#[test]
fn tables_of_a_loader_are_tested_in_a_direct_map() {
    let mut tables = tables();
    let start = tables.as_mut_ptr();
    // SAFETY: as above.
    let mut mapper = unsafe { OffsetPageTable::new(&mut *start.add(1), VirtAddr::from_ptr(start)) };
    client::map_one(&mut mapper, &mut Free::new(2..6));
    let is_valid = || {
        // SAFETY: nothing uses the tables while the memory lives.
        let memory = unsafe { DirectMap::new(start, &[(0, FRAMES as u64)]) };
        is_valid_by_marks::<FourLevels, _, _>(&memory, &IdentityMapping, PhysFrame::from_pfn(1), &mut [false; FRAMES])
    };
    assert!(is_valid());
    // SAFETY: nothing else uses the tables now.
    let root = unsafe { &mut *start.add(1) };
    // Two entries name one table then.
    root[9] = root[0].clone();
    assert!(!is_valid());
}

/// What Rust's users expect of addresses, flags and errors.
mod conveniences {
    use super::*;
    use std::error::Error;
    use x86_64::registers::control::Cr3Flags;
    use x86_64::structures::paging::PageTableIndex;
    use x86_64_paging::access::PageFaultCode;

    #[test]
    fn addresses_are_numbers_and_pointers() {
        let address = VirtAddr::new(0xffff_8000_0000_1234);
        assert_eq!((u64::from(address), usize::from(address)), (0xffff_8000_0000_1234, 0xffff_8000_0000_1234));
        assert_eq!(VirtAddr::try_from(0xffff_8000_0000_1234u64), Ok(address));
        assert_eq!(VirtAddr::try_from(1usize << 47).map_err(|why| why.0), Err(1 << 47));
        assert_eq!(VirtAddr57::try_from(1u64 << 47), Ok(VirtAddr57::new(1 << 47)));
        assert_eq!(PhysAddr::try_from(1u64 << 52).map_err(|why| why.0), Err(1 << 52));
        assert_eq!(u64::from(PhysAddr::try_from(7usize).unwrap()), 7);
        assert_eq!(VirtAddr::try_from(VirtAddr57::from(address)), Ok(address));
        assert!(VirtAddr::try_from(VirtAddr57::new(1 << 47)).is_err());
        let number = 5;
        assert_eq!(VirtAddr57::from_ptr(&raw const number).as_ptr(), &raw const number);
    }

    #[test]
    fn addresses_are_texts() {
        let (four, five, phys) = (VirtAddr::new(0xab0), VirtAddr57::new(0xab0), PhysAddr::new(0xab0));
        for text in [
            format!("{four} {four:x} {four:#X} {four:o} {four:b} {four:p}"),
            format!("{five} {five:x} {five:#X} {five:o} {five:b} {five:p}"),
        ] {
            assert_eq!(text, "0xab0 ab0 0xAB0 5260 101010110000 0xab0");
        }
        assert_eq!(format!("{phys} {phys:x} {phys:#X} {phys:o} {phys:b} {phys:p}"), "0xab0 ab0 0xAB0 5260 101010110000 0xab0");
        assert_eq!(format!("{four:016x}"), "0000000000000ab0");
    }

    #[test]
    fn steps_go_on_behind_the_gap() {
        let last = VirtAddr::new(0x7fff_ffff_ffff);
        assert_eq!(VirtAddr::forward(last, 1), VirtAddr::new(0xffff_8000_0000_0000));
        assert_eq!(VirtAddr::backward(VirtAddr::new(0xffff_8000_0000_0000), 1), last);
        let page = Page::<Size4KiB>::containing_address(last);
        assert_eq!(Page::backward(Page::forward(page, 2), 2), page);
        let index = PageTableIndex::new(510);
        assert_eq!(PageTableIndex::backward(PageTableIndex::forward(index, 1), 511), PageTableIndex::new(0));
    }

    #[test]
    #[should_panic(expected = "a step beyond the last one")]
    fn no_step_goes_beyond_the_last_address() {
        VirtAddr57::forward(VirtAddr57::new(u64::MAX), 1);
    }

    #[test]
    #[should_panic(expected = "a step before the first one")]
    fn no_step_goes_before_the_first_page() {
        Page::<Size2MiB>::backward(Page::containing_address(VirtAddr::zero()), 1);
    }

    #[test]
    fn flags_are_texts() {
        assert_eq!(BOTH.to_string(), "PRESENT | WRITABLE");
        assert_eq!(format!("{:#x} {:o} {:b} {:X}", BOTH | Flags::BIT_9, BOTH, BOTH, Flags::BIT_11), "0x203 3 11 800");
        assert_eq!(Flags::from_bits_retain(0x1001).to_string(), "PRESENT | 0x1000");
        assert_eq!(Flags::empty().to_string(), "0x0");
        assert_eq!((PageFaultCode::USER_MODE | PageFaultCode::CAUSED_BY_WRITE).to_string(), "CAUSED_BY_WRITE | USER_MODE");
        assert_eq!(
            format!("{:?} {:?}", Cr3Flags::empty(), Cr3Flags::all()),
            "Cr3Flags(0x0) Cr3Flags(PAGE_LEVEL_WRITETHROUGH | PAGE_LEVEL_CACHE_DISABLE)"
        );
    }

    #[test]
    fn errors_are_errors_of_core() {
        let errors: [Box<dyn Error>; 6] = [
            Box::new(MapToError::PageAlreadyMapped(PhysFrame::<Size4KiB>::from_pfn(7))),
            Box::new(UnmapError::InvalidFrameAddress(PhysAddr::new(0x20_1000))),
            Box::new(VirtAddr::try_new(1 << 47).unwrap_err()),
            Box::new(PhysAddr::try_new(1 << 52).unwrap_err()),
            Box::new(GiveUpError::EntryUsed),
            Box::new(InvalidPageTable::NotActive),
        ];
        let texts = errors.map(|error| error.to_string());
        assert_eq!(texts[0], "the page is already mapped, so not to PhysFrame[4KiB](0x7000)");
        assert_eq!(texts[1], "the page's entry has the address 0x201000, at which no frame starts");
        assert_eq!(texts[2], "0x800000000000 isn't canonical with four levels of page tables");
    }

    #[test]
    fn a_range_tells_how_far_it_came() {
        let mut tables = tables();
        let start = tables.as_mut_ptr();
        // SAFETY: as above.
        let mut mapper = unsafe { OffsetPageTable::new(&mut *start.add(1), VirtAddr::from_ptr(start)) };
        let first = Page::<Size4KiB>::containing_address(VirtAddr::new(0x1ff_000));
        // SAFETY: no processor uses the tables.
        let mapped = unsafe { mapper.map_range(first, 9, PhysFrame::from_pfn(100), BOTH, BOTH, &mut Free::new(2..5)) };
        let error = mapped.expect_err("a table for the second page lacks a frame");
        assert_eq!(error.to_string(), "there is no frame for a table (pages mapped before: 1)");
        error.mapped.ignore();
    }

    #[test]
    fn a_pcid_is_below_4096() {
        use x86_64::instructions::tlb::Pcid;
        assert_eq!(Pcid::new(4095).map(|pcid| pcid.value()).ok(), Some(4095));
        assert_eq!(Pcid::new(4096).unwrap_err().to_string(), "4096 is no PCID, which is below 4096");
    }
}

/// Code of a user of the crate `x86_64`, as it is.
mod client {
    use x86_64::structures::paging::mapper::{FlagUpdateError, MapperFlush, MapperFlushAll, TranslateResult};
    use x86_64::structures::paging::page::PageRangeInclusive;
    use x86_64::structures::paging::{
        mapper::{CleanUp, MapToError, MapperAllSizes, TranslateError, UnmapError},
        FrameAllocator, FrameDeallocator, Mapper, Page, PageSize, PageTable, PageTableFlags, PhysFrame, Size4KiB, Translate,
    };
    use x86_64::{PhysAddr, VirtAddr};
    use x86_64_paging::kernel as x86_64;

    /// A mapper around another, with each method of the trait.
    pub struct Counted<M>(pub M, pub usize);

    impl<S: PageSize, M: Mapper<S>> Mapper<S> for Counted<M> {
        unsafe fn map_to_with_table_flags<A>(
            &mut self,
            page: Page<S>,
            frame: PhysFrame<S>,
            flags: PageTableFlags,
            parent_table_flags: PageTableFlags,
            frame_allocator: &mut A,
        ) -> Result<MapperFlush<S>, MapToError<S>>
        where
            Self: Sized,
            A: FrameAllocator<Size4KiB> + ?Sized,
        {
            self.1 += 1;
            unsafe { self.0.map_to_with_table_flags(page, frame, flags, parent_table_flags, frame_allocator) }
        }

        fn unmap(&mut self, page: Page<S>) -> Result<(PhysFrame<S>, MapperFlush<S>), UnmapError> {
            self.0.unmap(page)
        }

        unsafe fn update_flags(&mut self, page: Page<S>, flags: PageTableFlags) -> Result<MapperFlush<S>, FlagUpdateError> {
            unsafe { self.0.update_flags(page, flags) }
        }

        unsafe fn set_flags_p4_entry(&mut self, page: Page<S>, flags: PageTableFlags) -> Result<MapperFlushAll, FlagUpdateError> {
            unsafe { self.0.set_flags_p4_entry(page, flags) }
        }

        unsafe fn set_flags_p3_entry(&mut self, page: Page<S>, flags: PageTableFlags) -> Result<MapperFlushAll, FlagUpdateError> {
            unsafe { self.0.set_flags_p3_entry(page, flags) }
        }

        unsafe fn set_flags_p2_entry(&mut self, page: Page<S>, flags: PageTableFlags) -> Result<MapperFlushAll, FlagUpdateError> {
            unsafe { self.0.set_flags_p2_entry(page, flags) }
        }

        fn translate_page(&self, page: Page<S>) -> Result<PhysFrame<S>, TranslateError> {
            self.0.translate_page(page)
        }
    }

    impl<M: Translate> Translate for Counted<M> {
        fn translate(&self, addr: VirtAddr) -> TranslateResult {
            self.0.translate(addr)
        }
    }

    impl<M: CleanUp> CleanUp for Counted<M> {
        unsafe fn clean_up<D>(&mut self, frame_deallocator: &mut D)
        where
            D: FrameDeallocator<Size4KiB>,
        {
            unsafe { self.0.clean_up(frame_deallocator) }
        }

        unsafe fn clean_up_addr_range<D>(&mut self, range: PageRangeInclusive, frame_deallocator: &mut D)
        where
            D: FrameDeallocator<Size4KiB>,
        {
            unsafe { self.0.clean_up_addr_range(range, frame_deallocator) }
        }
    }

    /// The traits are used as objects, too.
    pub fn use_objects(translate: &(dyn Translate + Sync), frames: &mut dyn FrameAllocator<Size4KiB>) -> (Option<PhysAddr>, bool) {
        (translate.translate_addr(VirtAddr::new(0x7123)), frames.allocate_frame().is_some())
    }

    pub fn map_one<M: MapperAllSizes>(mapper: &mut M, frames: &mut dyn FrameAllocator<Size4KiB>) {
        let frame = frames.allocate_frame().expect("a frame is free");
        let page = Page::<Size4KiB>::from_start_address(VirtAddr::new(0x7000)).unwrap();
        let flags = PageTableFlags::PRESENT | PageTableFlags::WRITABLE | PageTableFlags::USER_ACCESSIBLE;
        unsafe { mapper.map_to(page, frame, flags, frames).unwrap().ignore() };
    }

    pub fn is_empty(table: &PageTable) -> bool {
        table.iter().all(|entry| entry.is_unused())
    }
}

#[test]
fn code_for_the_other_crate_is_as_it_is() {
    fn may_be_static<T: Send + Sync>(_: &T) {}
    let mut tables = tables();
    let start = tables.as_mut_ptr();
    // SAFETY: as above.
    let mapper = unsafe { MappedPageTable::new(&mut *start.add(1), At(start)) };
    let mut mapper = client::Counted(mapper, 0);
    let mut free = Free::new(2..8);
    client::map_one(&mut mapper, &mut free);
    assert_eq!(mapper.1, 1);
    let mut offset = PageTable::new();
    // SAFETY: as above; the table is empty.
    let offset = unsafe { OffsetPageTable::new(&mut offset, VirtAddr::from_ptr(start)) };
    may_be_static(&offset);
    assert_eq!(client::use_objects(&offset, &mut free), (None, true));
    assert_eq!(mapper.translate_addr(VirtAddr::new(0x7123)), Some(PhysAddr::new(0x2123)));
    mapper.unmap(Page::<Size4KiB>::containing_address(VirtAddr::new(0x7000))).expect("the page is mapped").1.ignore();
    // SAFETY: nothing else leads to the tables.
    unsafe { mapper.clean_up(&mut free) };
    assert!(client::is_empty(mapper.0.level_4_table()));
}

/// Names that the crate `x86_64` has of the page table layer. The instructions are for kernels, so nothing runs.
#[allow(unused)]
mod names {
    use x86_64::instructions::tlb::{self, InvPcidCommand, Pcid, PcidTooBig};
    use x86_64::registers::control::{Cr2, Cr3, Cr3Flags};
    use x86_64::structures::paging::frame::{self, PhysFrameRange, PhysFrameRangeInclusive};
    use x86_64::structures::paging::mapper::{
        self, CleanUp, FlagUpdateError, InvalidPageTable, MapToError, MappedFrame, MapperAllSizes, MapperFlush, MapperFlushAll,
        PageTableFrameMapping, TranslateError, TranslateResult, UnmapError,
    };
    use x86_64::structures::paging::page::{self, AddressNotAligned, NotGiantPageSize, PageRange, PageRangeInclusive};
    use x86_64::structures::paging::page_table::{self, FrameError, PageTableEntry, PageTableLevel};
    use x86_64::structures::paging::{
        FrameAllocator, FrameDeallocator, MappedPageTable, Mapper, OffsetPageTable, Page, PageOffset, PageSize, PageTable,
        PageTableFlags, PageTableIndex, PhysFrame, RecursivePageTable, Size1GiB, Size2MiB, Size4KiB, Translate,
    };
    use x86_64::{
        addr::{self, align_down, align_up, PhysAddrNotValid, VirtAddrNotValid},
        PhysAddr, VirtAddr,
    };
    use x86_64_paging::kernel as x86_64;

    struct Phys(VirtAddr);
    unsafe impl PageTableFrameMapping for Phys {
        fn frame_to_pointer(&self, frame: PhysFrame) -> *mut PageTable {
            (self.0 + frame.start_address().as_u64()).as_mut_ptr()
        }
    }

    pub unsafe fn mapped(table: &'static mut PageTable, frames: &mut impl FrameAllocator<Size4KiB>) {
        let mut mapper = unsafe { MappedPageTable::new(table, Phys(VirtAddr::new(0))) };
        let _: &PageTable = mapper.level_4_table();
        let _: &mut PageTable = mapper.level_4_table_mut();
        let _: &Phys = mapper.page_table_frame_mapping();
        let frame = PhysFrame::<Size1GiB>::containing_address(PhysAddr::new(0));
        unsafe { mapper.identity_map(frame, PageTableFlags::PRESENT, frames) }.unwrap().flush();
        assert!(!format!("{mapper:?}").is_empty());
    }

    pub unsafe fn recursive(
        table: &'static mut PageTable,
        frames: &mut (impl FrameAllocator<Size4KiB> + FrameDeallocator<Size4KiB>),
    ) {
        let mut mapper: RecursivePageTable = match RecursivePageTable::new(table) {
            Ok(mapper) => mapper,
            Err(InvalidPageTable::NotRecursive) | Err(InvalidPageTable::NotActive) => return,
        };
        let page: Page<Size2MiB> = Page::containing_address(VirtAddr::new(0x20_0000));
        let frame = PhysFrame::containing_address(PhysAddr::new(0));
        let flags = PageTableFlags::PRESENT;
        let (first, last) = (VirtAddr::new(0), VirtAddr::new(0x1000));
        let range = Page::range_inclusive(Page::containing_address(first), Page::containing_address(last));
        unsafe {
            mapper.map_to_with_table_flags(page, frame, flags, flags, frames).unwrap().flush();
            mapper.set_flags_p4_entry(page, flags).unwrap().flush_all();
            mapper.clean_up_addr_range(range, frames);
        }
        let (_, flush): (PhysFrame<Size2MiB>, MapperFlush<Size2MiB>) = mapper.unmap(page).unwrap();
        flush.flush();
        assert!(!format!("{mapper:?}").is_empty());
    }

    pub fn results(translate: &(dyn Translate + Sync)) {
        match translate.translate(VirtAddr::new(5)) {
            TranslateResult::Mapped { frame: MappedFrame::Size4KiB(frame), offset, flags } => {
                let _: (PhysFrame, u64, PageTableFlags) = (frame, offset, flags);
            }
            TranslateResult::Mapped { frame, .. } => {
                let _ = (frame.start_address(), frame.size());
            }
            TranslateResult::NotMapped => {}
            TranslateResult::InvalidFrameAddress(address) => {
                let _: PhysAddr = address;
            }
        }
    }

    pub unsafe fn instructions(page: Page) {
        MapperFlush::new(page).ignore();
        MapperFlushAll::new().flush_all();
        tlb::flush(VirtAddr::new(0));
        tlb::flush_all();
        let (frame, flags): (PhysFrame, Cr3Flags) = Cr3::read();
        unsafe { Cr3::write(frame, flags) };
        let _: Result<VirtAddr, VirtAddrNotValid> = Cr2::read();
        let _: u64 = Cr2::read_raw();
        let (frame, low): (PhysFrame, u16) = Cr3::read_raw();
        unsafe { Cr3::write_raw(frame, low) };
    }

    pub unsafe fn pcids(page: Page) {
        let (frame, pcid): (PhysFrame, Pcid) = Cr3::read_pcid();
        let other: Result<Pcid, PcidTooBig> = Pcid::new(pcid.value() + 1);
        unsafe {
            Cr3::write_pcid(frame, other.unwrap());
            Cr3::write_pcid_no_flush(frame, pcid);
            tlb::flush_pcid(InvPcidCommand::Address(page.start_address(), pcid));
            tlb::flush_pcid(InvPcidCommand::Single(pcid));
            tlb::flush_pcid(InvPcidCommand::All);
            tlb::flush_pcid(InvPcidCommand::AllExceptGlobal);
        }
    }

    pub fn generic<M>(mapper: &mut M, frames: &mut dyn FrameAllocator<Size4KiB>)
    where
        M: Mapper<Size4KiB> + Mapper<Size2MiB> + Translate,
    {
        let page: Page<Size4KiB> = Page::containing_address(VirtAddr::new(0));
        let frame = PhysFrame::containing_address(PhysAddr::new(0));
        unsafe { mapper.map_to(page, frame, PageTableFlags::PRESENT, frames) }.unwrap().flush();
        let _ = mapper.translate_page(page).is_ok() && mapper.translate_addr(VirtAddr::new(0)).is_some();
        let _ = MapperFlushAll::default();
    }
}
