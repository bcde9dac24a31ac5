//! A mapper of a memory that is mapped at an offset, with five levels of tables, and whether an offset fits.

use x86_64_paging::support::Vec;

use crate::prelude::*;
use crate::uses::at_offset::run_at_offset;
use x86_64_paging::mappers::calls::translate_addr;
use x86_64_paging::mappers::offset_page_table::OffsetPageTableIn;

/// Offsets of 57 bits, and whether they fit a memory of 8 places, at both ends of the lower half of the addresses, then
/// of the upper half.
const OFFSETS: [(u64, bool); 9] = [
    (0x0, true),
    (0x7fff_ffff_9000, true),
    (0xff_ffff_ffff_8fff, true),
    (0xff_ffff_ffff_9000, false),
    (0xff_ffff_ffff_ffff, false),
    (0xff00_0000_0000_0000, true),
    (0xffff_ffff_ffff_8fff, true),
    (0xffff_ffff_ffff_9000, false),
    (0xffff_ffff_ffff_ffff, false),
];

/// Compares whether an offset fits a memory.
fn check<L: LevelCount>(memory: &PhysMemory, raw: u64, wanted: bool) {
    let offset = VirtAddrIn::<L>::new_truncate(raw);
    let fits = OffsetPageTableIn::offset_fits(memory, offset);
    assert_equal_in(raw, (offset.as_u64(), fits), (raw, wanted));
}

#[test]
fn offsets_fit_where_each_place_is_reached() {
    let none = unwrap(PhysMemory::new(0));
    let memory = unwrap(PhysMemory::new(8));
    for (raw, wanted) in OFFSETS {
        check::<FiveLevels>(&memory, raw, wanted);
        check::<FiveLevels>(&none, raw, true);
    }
    for end in [0x8000, 0x8fff, 0x9000, 0xf000] {
        check::<FourLevels>(&none, 0x7fff_ffff_0000 | end, true);
        check::<FourLevels>(&none, 0xffff_ffff_ffff_0000 | end, true);
    }
    check::<FourLevels>(&none, 0xffff_8000_0000_0000, true);
    check::<FourLevels>(&none, 0x123, true);
}

/// Executes calls twice, each time with a new mapper. Whether the offset fits is tested only once.
fn run_twice<L: LevelCount, P5: LevelFiveFlags<L>>(
    world: &mut World,
    offset: VirtAddrIn<L>,
    calls: &[CallIn<L, P5>],
) -> Vec<ReplyIn<L>> {
    let (root, mut replies) = (frame(0x1000), Vec::new());
    world.assert_fits::<L>(root);
    let (memory, pool) = (&mut world.memory, &mut world.pool);
    assert!(OffsetPageTableIn::offset_fits(memory, offset));
    let answered = run_at_offset(memory, root, offset, pool, calls, &mut replies);
    unwrap(answered);
    let answered = run_at_offset(memory, root, offset, pool, calls, &mut replies);
    unwrap(answered);
    replies
}

#[test]
fn offsets_that_fit_fit_after_maps() {
    let mut world = World::new(&[], (2, 6));
    let (page, frame, flags) = (page(0x1000), frame(0x6000), flags(3));
    let calls = [Call57::Of4KiB(SizeCall57::MapTo { page, frame, flags }), Call57::TranslateAddr(VirtAddr57::new(0x1abc))];
    let offset = VirtAddr57::new(0xff00_0000_0000_0000);
    let replies = run_twice(&mut world, offset, &calls);
    let address = PhysAddr::new(0x6abc);
    let expected = [
        Reply57::Of4KiB(PageReply::Map(Ok(page))),
        Reply57::Address(Some(address)),
        Reply57::Of4KiB(PageReply::Map(Err(MapToError::PageAlreadyMapped(frame)))),
        Reply57::Address(Some(address)),
    ];
    assert_equal(replies.as_slice(), &expected);
    world.check((0, 0), &WORDS_57[1..])
}

/// Compares a mapper's offset, and what it maps an address to.
fn check_mapper<L: LevelCount>(world: &mut World, (raw, wanted): (u64, u64)) {
    let (root, offset) = (frame(0x1000), VirtAddrIn::<L>::new_truncate(raw));
    world.assert_fits::<L>(root);
    let memory = &mut world.memory;
    assert!(OffsetPageTableIn::offset_fits(memory, offset));
    let mapper = OffsetPageTableIn::new(memory, root, offset);
    assert_equal(mapper.phys_offset(), offset);
    assert_equal(mapper.recursive_index(), None);
    let found = translate_addr(&mapper, VirtAddrIn::<L>::new_truncate(0x1abc));
    assert_equal(found, Some(PhysAddr::new_truncate(wanted)));
}

#[test]
fn mappers_at_an_offset_find_their_tables() {
    let mut world = World::new(&WORDS[1..], (0, 0));
    check_mapper::<FourLevels>(&mut world, (0xffff_8000_0000_0000, 0x5abc));
    let mut world = World::new(&WORDS_57[1..], (0, 0));
    check_mapper::<FiveLevels>(&mut world, (0xff00_0000_0000_0000, 0x6abc));
}
