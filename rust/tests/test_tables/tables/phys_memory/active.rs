//! Tests of tables that are reached through the root's entry for itself, with four levels of page tables and with
//! five.
use super::RECURSIVE_57;
use crate::common::*;

/// The window (page) of the root for the recursive index 510.
const ROOT_WINDOW: u64 = 0xffff_ff7f_bfdf_e000;

/// The words of a hierarchy with entries for 4KiB pages that are in memory, absent and not in memory, and for a 2MiB
/// page at 0, with a self-entry at the index 510.
const PAGES: [u64; 24] = [
    0x1000, 510, 0x1003, 0x1000, 0, 0x2003, 0x2000, 0, 0x3003, 0x3000, 0, 0x4003, 0x3000, 1, 0x83, 0x4000, 1, 0x5003, 0x4000, 2,
    0x5002, 0x4000, 3, 0x9003,
];

/// Creates a memory with words in which word 511 of each table has the table's own address and lacks `PRESENT`.
fn memory_with(words: &[u64]) -> PhysMemory {
    let mut memory = memory_of(8, words);
    for frame in [0x0, 0x1000, 0x2000, 0x3000, 0x4000, 0x5000, 0x6000, 0x7000] {
        set_words(&mut memory, &[frame, 511, frame | 2]);
    }
    memory
}

/// Returns the address in word 511 of a table.
fn address_of(table: Option<&PageTable>) -> Option<u64> {
    Some(table?[511].addr().as_u64())
}

/// The frame, the index and the word of an entry, the frame in CR3, and whether the root's entry 510 names it.
const SELF_ENTRIES: [([u64; 3], u64, bool); 9] = [
    ([0x1000, 510, 0x1003], 0x1000, true),
    ([0x1000, 510, 0xfff0_0000_0000_1f7f], 0x1000, true),
    ([0x1000, 510, 0x1002], 0x1000, false),
    ([0x1000, 510, 0x1083], 0x1000, false),
    ([0x1000, 510, 0x2003], 0x1000, false),
    ([0x1000, 509, 0x1003], 0x1000, false),
    ([0x1000, 510, 0x1003], 0x2000, false),
    ([0x2000, 510, 0x1003], 0x2000, false),
    ([0x1000, 510, 0x1003], 0x8000, false),
];

#[test]
fn roots_have_self_entries() {
    for (word, cr3, wanted) in SELF_ENTRIES {
        let mut memory = memory_of(8, &word);
        let active = ActiveMemory::new(&mut memory, frame_at(cr3));
        let found = (active.cr3(), active.self_entry(PageTableIndex::new(510)));
        assert_equal_in((word, cr3), found, (frame_at(cr3), wanted));
    }
}

/// An address, and the address of the table that is lent there, if any.
type Lent = (u64, Option<u64>);

const LENT: [Lent; 13] = [
    (0x1000, Some(0x5000)),
    (0x1abc, None),
    (0x2000, None),
    (0x3000, None),
    (0x4000, None),
    (0x20_6000, Some(0x6000)),
    (0x20_6800, None),
    (0x20_8000, None),
    (ROOT_WINDOW, Some(0x1000)),
    (0xffff_ff7f_bfc0_0000, Some(0x2000)),
    (0xffff_ff7f_8000_0000, Some(0x3000)),
    (0xffff_ff00_0000_0000, Some(0x4000)),
    (0xffff_ff00_0000_1000, Some(0x0)),
];

const LENT_57: [Lent; 9] = [
    (0x1000, Some(0x6000)),
    (0x1abc, None),
    (0x2000, None),
    (0xfffe_ff7f_bfdf_e000, Some(0x1000)),
    (0xfffe_ff7f_bfc0_0000, Some(0x2000)),
    (0xfffe_ff7f_8000_0000, Some(0x3000)),
    (0xfffe_ff00_0000_0000, Some(0x4000)),
    (0xfffe_0000_0000_0000, Some(0x5000)),
    (0xffff_ff7f_bfdf_e000, None),
];

/// Sets word 7 of the table that is lent at an address, if any, and returns the table's address.
fn change_lent<L: LevelCount>(memory: &mut PhysMemory, addr: u64) -> Option<u64> {
    let mut active = Active::<L>::new(memory, frame_at(0x1000));
    let addr = VirtAddrIn::<L>::new_truncate(addr);
    let address = address_of(active.table(addr));
    if let Some(table) = active.table_mut(addr) {
        table[7].set_word(0x7002);
    }
    address
}

/// Asserts that word 7 is set in the table at an address, and in no other.
fn check_changed(memory: &PhysMemory, changed: Option<u64>) {
    for number in 0..8 {
        let table = unwrap_some(memory.table(FramePlace::new(number)));
        let is_changed = changed == Some(number * 0x1000);
        assert_equal_in((number, changed), !table[7].is_unused(), is_changed);
    }
}

/// Changes the tables that are lent at addresses, each in a memory of its own, and compares which tables they were.
fn check_lent<L: LevelCount>(words: &[u64], rows: &[Lent]) {
    for (addr, wanted) in rows {
        let mut memory = memory_with(words);
        assert_equal_in(*addr, change_lent::<L>(&mut memory, *addr), *wanted);
        check_changed(&memory, *wanted);
    }
}

#[test]
fn tables_are_lent_where_walks_arrive() {
    check_lent::<FourLevels>(&PAGES, &LENT);
    check_lent::<FiveLevels>(&RECURSIVE_57, &LENT_57);
}

#[test]
fn walks_go_through_the_words_of_the_moment() {
    let mut memory = memory_with(&PAGES);
    let mut active = ActiveMemory::new(&mut memory, frame_at(0x1000));
    let window = VirtAddr::new(0xffff_ff7f_bfc0_1000);
    let root = VirtAddr::new(ROOT_WINDOW);
    assert_equal(address_of(active.table(window)), None);
    unwrap_some(active.table_mut(root))[1].set_word(0x6001);
    assert_equal(address_of(active.table(window)), Some(0x6000));
    unwrap_some(active.table_mut(root))[510].set_unused();
    assert_equal(address_of(active.table(root)), None);
    assert_equal(address_of(active.table(window)), None);
    assert!(!active.self_entry(PageTableIndex::new(510)));
}
