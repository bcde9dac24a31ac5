//! Each method of a mapper of five levels of tables, by functions over any mapper, and a list with recorded flushes.

use crate::more::MoreOfVec;
use x86_64_paging::support::Vec;

use super::mapped;
use crate::prelude::*;
use x86_64_paging::structures::paging::mapper::CleanUp57;
use x86_64_paging::{is_outside_window_57, parent_flags, run_flushed_57, SizeReply57};

/// A page of 4KiB.
type Small = Page57<Size4KiB>;

/// Consumes a token, and returns its page.
fn page_of(flush: MapperFlush57<Size4KiB>) -> Small {
    let page = flush.page();
    flush.ignore();
    page
}

/// Maps the page at a frame's own address, another page with given parent flags, and the first one once more.
fn map_pages<M: Mapper57<Size4KiB>>(mapper: &mut M, same: Small, own: Frame, pool: &mut FramePool) {
    let (page, flags, parents) = (page(0x1000), flags(3), flags(1));
    assert!(mapper.map_allowed(page, flags, parents));
    let mapped = mapper.map_to_with_table_flags(page, own, flags, parents, pool);
    assert_equal(mapped.map(page_of), Ok(page));
    assert!(mapper.map_allowed(same, parents, parent_flags(parents)));
    let mapped = mapper.identity_map(own, parents, pool);
    assert_equal(mapped.map(page_of), Ok(same));
    assert!(mapper.map_allowed(same, parents, parent_flags(parents)));
    let again = mapper.map_to(same, own, parents, pool);
    let wanted = Err(MapToError::PageAlreadyMapped(own));
    assert_equal(again.map(page_of), wanted);
}

/// Sets the flags of a page, and of the entries of levels three and two above it.
fn set_flags<M: Mapper57<Size4KiB>>(mapper: &mut M, page: Small) {
    let flags = PageTableFlags::PRESENT | PageTableFlags::WRITABLE;
    assert!(is_outside_window_57(mapper, page) && !flags.has_address_bits());
    let updated = mapper.update_flags(page, flags);
    assert_equal(updated.map(page_of), Ok(page));
    assert!(mapper.p3_flags_allowed(page, flags));
    let changed = mapper.set_flags_p3_entry(page, flags);
    assert_equal(changed.map(MapperFlushAll::ignore), Ok(()));
    assert!(mapper.p2_flags_allowed(page, flags));
    let changed = mapper.set_flags_p2_entry(page, flags);
    assert_equal(changed.map(MapperFlushAll::ignore), Ok(()));
}

/// Sets the flags of the entries of levels five and four above a page.
fn set_upper_flags<M: Mapper57<Size4KiB>>(mapper: &mut M, page: Small) {
    let flags = PageTableFlags::PRESENT | PageTableFlags::WRITABLE;
    assert!(is_outside_window_57(mapper, page) && !flags.has_address_bits());
    assert!(!flags.contains(PageTableFlags::HUGE_PAGE));
    let changed = mapper.set_flags_p5_entry(page, flags);
    assert_equal(changed.map(MapperFlushAll::ignore), Ok(()));
    let changed = mapper.set_flags_p4_entry(page, flags);
    assert_equal(changed.map(MapperFlushAll::ignore), Ok(()));
}

/// Translates a page that is mapped to the frame at 0x6000, and unmaps it.
fn unmap<M: Mapper57<Size4KiB> + Translate57>(mapper: &mut M, page: Small) {
    let (frame, address) = (frame(0x6000), page.start_address());
    assert_equal(mapper.translate_page(page), Ok(frame));
    assert_equal(mapper.translate(address), mapped(frame, 0, 3));
    let wanted = Some(PhysAddr::new(0x6000));
    assert_equal(mapper.translate_addr(address), wanted);
    assert!(is_outside_window_57(mapper, page));
    let unmapped = mapper.unmap(page);
    let answer = unmapped.map(|(frame, flush)| (frame, page_of(flush)));
    assert_equal(answer, Ok((frame, page)));
}

/// Makes these calls with the direct mapper, which is then dropped.
fn make_calls(world: &mut World) {
    let (root, own) = (frame(0x1000), frame(0x6000));
    world.assert_fits::<FiveLevels>(root);
    let (memory, pool) = (&mut world.memory, &mut world.pool);
    let mut mapper = MappedPageTable57::new(memory, root, IdentityMapping);
    assert!(unwrap(mapper.is_valid()));
    let start = VirtAddr57::new_truncate(own.start_address().as_u64());
    let same = unwrap(Page57::from_start_address(start));
    map_pages(&mut mapper, same, own, pool);
    set_flags(&mut mapper, same);
    set_upper_flags(&mut mapper, same);
    unmap(&mut mapper, same);
}

#[test]
fn each_call_on_a_page_of_57_bits_is_made() {
    let mut world = World::new(&[], (2, 6));
    make_calls(&mut world);
    world.check((0, 0), &WORDS_57[1..])
}

/// Cleans up the pages of a range, given as an address in its first page and one in its last one, or all pages.
fn clean_up_by<M: CleanUp57>(mapper: &mut M, pool: &mut FramePool, range: Option<(u64, u64)>) {
    match range {
        Some((first, last)) => {
            let range = Page57::range_inclusive(page(first), page(last));
            mapper.clean_up_addr_range(range, pool);
        }
        None => mapper.clean_up(pool),
    }
}

/// Cleans up with the direct mapper, which is then dropped.
fn clean_up(world: &mut World, range: Option<(u64, u64)>) {
    let root = frame(0x1000);
    world.assert_fits::<FiveLevels>(root);
    let (memory, pool) = (&mut world.memory, &mut world.pool);
    let mut mapper = MappedPageTable57::new(memory, root, IdentityMapping);
    clean_up_by(&mut mapper, pool, range)
}

#[test]
fn empty_tables_of_five_levels_go_back() {
    let mut world = World::new(&WORDS_57[1..5], (6, 8));
    let range = Some((0x1_0000_0000_0000, 0xff_ffff_ffff_f000));
    clean_up(&mut world, range);
    world.check((6, 8), &WORDS_57[1..5]);
    clean_up(&mut world, None);
    world.check((2, 8), &[])
}

/// Executes calls, and records their flushes.
fn record(world: &mut World, calls: &[Call57], recorder: &mut FlushRecorder) -> Vec<Reply57> {
    let (root, mut replies) = (frame(0x1000), Vec::new());
    world.assert_fits::<FiveLevels>(root);
    let (memory, pool) = (&mut world.memory, &mut world.pool);
    let mut mapper = MappedPageTable57::new(memory, root, IdentityMapping);
    let served = run_flushed_57(&mut mapper, pool, calls, &mut replies, recorder);
    unwrap(served);
    replies
}

/// Returns the calls: two maps of a page, of which the second is refused, a change of the entry of level five, an
/// unmap and a clean up.
fn calls_on(page: Small, flags: PageTableFlags) -> [Call57; 5] {
    [
        map(0xff00_0000_0000_1000, 0x6000),
        map(0xff00_0000_0000_1000, 0x7000),
        Call57::Of4KiB(SizeCall57::SetFlagsP5 { page, flags }),
        Call57::Of4KiB(SizeCall57::Unmap { page }),
        Call57::CleanUp,
    ]
}

#[test]
fn accepted_calls_of_five_levels_are_recorded_and_no_others() {
    let mut world = World::new(&[], (2, 6));
    let mut recorder = FlushRecorder::new();
    let page = page::<Size4KiB, _>(0xff00_0000_0000_1000);
    let calls = calls_on(page, flags(3));
    let replies = record(&mut world, &calls, &mut recorder);
    let expected = [
        Reply57::Of4KiB(SizeReply57::Map(Ok(page))),
        Reply57::Of4KiB(SizeReply57::Map(Err(MapToError::PageAlreadyMapped(frame(0x7000))))),
        Reply57::Of4KiB(SizeReply57::TableFlags(Ok(()))),
        Reply57::Of4KiB(SizeReply57::Unmap(Ok((frame(0x6000), page)))),
        Reply57::Cleaned,
    ];
    assert_equal(replies.as_slice(), &expected);
    let (start, size) = (VirtAddr57::new(0xff00_0000_0000_1000), 0x1000);
    let flushed = [FlushItem::Page57 { start, size }, FlushItem::All, FlushItem::Page57 { start, size }];
    assert_equal(recorder.items(), &flushed);
    world.check((2, 6), &[])
}
