//! Tests of parent flags, flushes and memory.
mod frame_alloc;
mod page_table;
mod phys_memory;

use crate::common::*;

/// Bits, those of them that parents get, and whether there are address bits among them.
const PARTS: [(u64, u64, bool); 6] = [
    (0x0, 0x0, false),
    (0x3, 0x3, false),
    (0x8000_0000_0000_01fe, 0x6, false),
    (0xfff0_0000_0000_0fff, 0x7, false),
    (0x1005, 0x5, true),
    (0x8_0000_0000_0080, 0x0, true),
];

#[test]
fn flags_have_parts() {
    for (bits, parents, has_address) in PARTS {
        let flags = PageTableFlags::from_bits_retain(bits);
        let found = (parent_flags(flags).bits(), flags.has_address_bits());
        assert_equal_in(bits, found, (parents, has_address));
    }
}

/// Returns word 3 of the table at a place (the index of a table in memory), if there is one.
fn word_at(memory: &PhysMemory, place: FramePlace) -> Option<u64> {
    Some(memory.table(place)?[3].word())
}

#[test]
fn memory_has_tables_at_places() {
    let mut memory = unwrap(PhysMemory::new(8));
    let place = FramePlace::new(6);
    assert!(memory[place].is_empty());
    memory[place][3].set_word(0x2001);
    assert_equal(word_at(&memory, place), Some(0x2001));
    let frame = frame_at(0x7000);
    assert!(IdentityMapping.covers(frame));
    let place = IdentityMapping.frame_to_pointer(frame);
    assert_equal(place, FramePlace::new(7));
    let table = unwrap_some(memory.table_mut(place));
    table[3].set_word(0x1001);
    assert_equal(word_at(&memory, place), Some(0x1001));
    assert!(memory.table_mut(FramePlace::new(8)).is_none());
}

/// Flushes the page of a size at an address, and compares the item, which is the only one.
fn check_flush<S: PageSize, L: LevelCount>(start: u64, item: FlushItem) {
    let (page, mut recorder) = (page::<S, L>(start), FlushRecorder::new());
    assert!(recorder.items().is_empty());
    let token = MapperFlushIn::new(page);
    assert_equal(token.page(), page);
    let answer = token.record(&mut recorder);
    assert_equal(answer.map_err(MapperFlushIn::ignore), Ok(()));
    assert_equal(recorder.items(), [item].as_slice());
}

/// More flushes, in order and with room reserved, are in the crates `test_runs` and `test_mappers`.
#[test]
fn flushes_of_pages_are_recorded() {
    let (start, size) = (VirtAddr::new(0xffff_8000_0000_0000), 4096);
    let item = FlushItem::Page { start, size };
    check_flush::<Size4KiB, FourLevels>(0xffff_8000_0000_0000, item);
    for raw in [0x20_0000, 0xff00_0000_0000_0000] {
        let (start, size) = (VirtAddr57::new_truncate(raw), 2_097_152);
        let item = FlushItem::Page57 { start, size };
        check_flush::<Size2MiB, FiveLevels>(raw, item);
    }
}
