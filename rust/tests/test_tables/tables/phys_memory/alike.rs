//! Tests of alike hierarchies, whose path maps are equal except for `WRITABLE` of table entries.

use super::RECURSIVE_57;
use crate::common::*;
use x86_64_paging::tables::phys_memory::{tables_alike, tables_alike_57};

/// The words of a hierarchy with a 4KiB page, whose table entries are not writable.
const DIRECT: [u64; 12] = [0x1000, 0, 0x2001, 0x2000, 0, 0x3001, 0x3000, 0, 0x4001, 0x4000, 1, 0x5001];

/// These with writable tables and with a self-entry at the index 510.
const RECURSIVE: [u64; 15] = [0x1000, 510, 0x1003, 0x1000, 0, 0x2003, 0x2000, 0, 0x3003, 0x3000, 0, 0x4003, 0x4000, 1, 0x5001];

/// The words of a hierarchy with five levels and a 4KiB page, whose table entries are not writable.
const DIRECT_57: [u64; 15] = [0x1000, 0, 0x2001, 0x2000, 0, 0x3001, 0x3000, 0, 0x4001, 0x4000, 0, 0x5001, 0x5000, 1, 0x6001];

/// Returns whether a hierarchy and one with a recursive index are alike, for any frame mapping passed beside the
/// index.
fn alike_by_index(
    direct: &PhysMemory,
    recursive: &PhysMemory,
    mapping: &ShiftMapping,
    root: PhysFrame<Size4KiB>,
    index: PageTableIndex,
) -> bool {
    let (own, index) = (IdentityMapping, Some(index));
    tables_alike(direct, &own, root, None, recursive, mapping, root, index)
}

/// Returns whether a hierarchy of four levels and one with the recursive index 510 are alike.
fn alike(direct: &PhysMemory, recursive: &PhysMemory) -> bool {
    let (root, index) = (frame_at(0x1000), PageTableIndex::new(510));
    alike_by_index(direct, recursive, &ShiftMapping::new(3), root, index)
}

/// This for five levels.
fn alike_57(direct: &PhysMemory, recursive: &PhysMemory) -> bool {
    let (root, index) = (frame_at(0x1000), Some(PageTableIndex::new(510)));
    let (own, other) = (IdentityMapping, ShiftMapping::new(3));
    tables_alike_57(direct, &own, root, None, recursive, &other, root, index)
}

/// Words that are set in a hierarchy, and in one with a recursive index, and whether the two are alike then.
type Difference = (&'static [u64], &'static [u64], bool);

static DIFFERENCES: [Difference; 14] = [
    (&[], &[], true),
    (&[0x4000, 1, 0x5003], &[], false),
    (&[0x4000, 1, 0x5003], &[0x4000, 1, 0x5003], true),
    (&[0x4000, 2, 0x6002], &[], false),
    (&[0x4000, 2, 0x6002], &[0x4000, 2, 0x6000], false),
    (&[0x4000, 2, 0x6002], &[0x4000, 2, 0x6002], true),
    (&[], &[0x2000, 1, 0x6002], false),
    (&[0x2000, 1, 0x6002], &[0x2000, 1, 0x6000], true),
    (&[0x2000, 1, 0x2], &[], false),
    (&[0x3000, 0, 0x4005], &[], false),
    (&[0x3000, 1, 0x81], &[0x3000, 1, 0x83], false),
    (&[0x3000, 1, 0x83], &[0x3000, 1, 0x83], true),
    (&[0x3000, 0, 0x6001, 0x6000, 1, 0x5001], &[], false),
    (&[0x1000, 510, 0x1003], &[], false),
];

static DIFFERENCES_57: [Difference; 9] = [
    (&[], &[], true),
    (&[0x5000, 1, 0x6003], &[], false),
    (&[0x5000, 1, 0x6003], &[0x5000, 1, 0x6003], true),
    (&[0x4000, 0, 0x5005], &[], false),
    (&[0x4000, 1, 0x7002], &[0x4000, 1, 0x7000], true),
    (&[0x2000, 1, 0x7002], &[0x2000, 1, 0x7000], true),
    (&[0x4000, 1, 0x81], &[0x4000, 1, 0x83], false),
    (&[0x5000, 2, 0x7002], &[0x5000, 2, 0x7000], false),
    (&[0x1000, 510, 0x1003], &[], false),
];

/// Creates a memory with words, and then with more words.
fn changed(words: &[u64], more: &[u64]) -> PhysMemory {
    let mut memory = memory_of(8, words);
    set_words(&mut memory, more);
    memory
}

#[test]
fn hierarchies_are_alike_but_for_writable_tables() {
    for (one, other, wanted) in &DIFFERENCES {
        let (direct, recursive) = (changed(&DIRECT, one), changed(&RECURSIVE, other));
        assert_equal_in((*one, *other), alike(&direct, &recursive), *wanted);
    }
}

#[test]
fn hierarchies_of_five_levels_are_alike_but_for_writable_tables() {
    for (one, other, wanted) in &DIFFERENCES_57 {
        let (direct, recursive) = (changed(&DIRECT_57, one), changed(&RECURSIVE_57, other));
        assert_equal_in((*one, *other), alike_57(&direct, &recursive), *wanted);
    }
}

/// The words of the first hierarchy, with each table one place lower and writable entries.
const SHIFTED: [u64; 12] = [0x0, 0, 0x2003, 0x1000, 0, 0x3003, 0x2000, 0, 0x4003, 0x3000, 1, 0x5001];

#[test]
fn hierarchies_are_alike_by_their_own_mappings() {
    let (one, other) = (memory_of(8, &SHIFTED), memory_of(8, &DIRECT));
    let (root, own) = (frame_at(0x1000), IdentityMapping);
    for (first, wanted) in [(1, true), (0, false), (2, false)] {
        let mapping = ShiftMapping::new(first);
        let found = tables_alike(&one, &mapping, root, None, &other, &own, root, None);
        assert_equal_in(first, found, wanted);
    }
}

#[test]
fn words_that_name_their_own_table_are_alike() {
    let memory = memory_of(8, &RECURSIVE);
    let (root, own, index) = (frame_at(0x1000), IdentityMapping, PageTableIndex::new(510));
    assert!(tables_alike(&memory, &own, root, None, &memory, &own, root, None));
    assert!(!tables_alike(&memory, &own, root, None, &memory, &own, root, Some(index)));
}
