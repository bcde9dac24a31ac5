//! Tests of lists of mappings from an address on, and of some that are not there, by the lines that they are printed as, and of the
//! entries that walks read. Lists of all mappings and regions are in `tests/ptdump/mappings.txt`.

use crate::common::*;
use std::fmt::Display;
use x86_64_paging::listing::{mappings, mappings_57, mappings_from, regions, regions_57};
use x86_64_paging::{read_entries, EntriesRead, Rights, WalkEnd, WalkEntry, MOST_LEVELS};

/// Compares items with the lines that they are printed as.
fn check_lines(case: u64, items: impl Iterator<Item = impl Display>, lines: &[&str]) {
    let found: Vec<String> = items.map(|item| item.to_string()).collect();
    assert_eq!(found, lines, "in {case}");
}

/// The words of a page of each size.
const SIZES: [u64; 18] =
    [0x1000, 0, 0x2003, 0x2000, 0, 0x3003, 0x2000, 1, 0x80000083, 0x3000, 0, 0x4003, 0x3000, 1, 0x40_0083, 0x4000, 1, 0x5003];

static MAPPINGS: [&str; 3] =
    ["0x1000 4KiB 0x5000 rwx- 0x3", "0x200000 2MiB 0x400000 rwx- 0x83", "0x40000000 1GiB 0x80000000 rwx- 0x83"];

/// Addresses, and the number of these pages that end before each.
const STARTS: [(u64, usize); 9] = [
    (0x0, 0),
    (0x1fff, 0),
    (0x2000, 1),
    (0x23_4567, 1),
    (0x3f_ffff, 1),
    (0x40_0000, 2),
    (0x7fff_ffff, 2),
    (0x8000_0000, 3),
    (0xffff_8000_0000_0000, 3),
];

#[test]
fn mappings_are_listed_from_an_address_on() {
    let memory = memory_of(16, &SIZES);
    for (start, before) in STARTS {
        let addr = VirtAddr::new_truncate(start);
        let listed = mappings_from(&memory, &IdentityMapping, frame_at(0x1000), addr);
        let lines = unwrap_some(MAPPINGS.get(before..));
        check_lines(start, listed, lines);
    }
}

/// A page of 1GiB in the upper half, with five levels.
const UPPER: [u64; 9] = [0x1000, 256, 0x2003, 0x2000, 0, 0x3001, 0x3000, 1, 0x40000083];

#[test]
fn lists_have_as_many_levels() {
    let (memory, root) = (memory_of(16, &UPPER), frame_at(0x1000));
    let listed = mappings_57(&memory, &IdentityMapping, root);
    let lines = ["0xff00000040000000 1GiB 0x40000000 r-x- 0x83"];
    check_lines(5, listed, &lines);
    let listed = regions_57(&memory, &IdentityMapping, root);
    let lines = ["0xff00000040000000-0xff0000007fffffff 1GiB r-x-"];
    check_lines(5, listed, &lines);
    // No root lies there.
    let mapping = ShiftMapping::new(0x100);
    let listed = regions(&memory, &mapping, frame_at(0x20_0000));
    check_lines(4, listed, &[]);
}

#[test]
fn a_root_that_names_itself_at_each_index_is_listed() {
    let mut memory = memory_of(16, &[]);
    let table = unwrap_some(memory.table_mut(FramePlace::new(1)));
    for entry in table.iter_mut() {
        entry.set_word(0x1003);
    }
    let first = mappings(&memory, &IdentityMapping, frame_at(0x1000)).take(2);
    let lines = ["0x0 4KiB 0x1000 rwx- 0x3", "0x1000 4KiB 0x1000 rwx- 0x3"];
    check_lines(0, first, &lines);
    let addr = VirtAddr::new_truncate(0xffff_ffff_ffff_efff);
    let last = mappings_from(&memory, &IdentityMapping, frame_at(0x1000), addr);
    let lines = ["0xffffffffffffe000 4KiB 0x1000 rwx- 0x3", "0xfffffffffffff000 4KiB 0x1000 rwx- 0x3"];
    check_lines(1, last, &lines);
}

/// The words of a page of 4KiB below entries that take rights away, of an entry without PRESENT, and, in the root, of one with HUGE_PAGE
/// and one that names no table of the memory.
#[rustfmt::skip]
const WALKS: [u64; 21] = [
    0x1000, 1, 0x2007, 0x2000, 2, NEITHER_USER_NOR_EXECUTE, 0x3000, 3, 0x4007, 0x4000, 4, 0x5007,
    0x2000, 7, 0x9002, 0x1000, 8, 0x87, 0x1000, 9, 0x1_0007,
];
const NEITHER_USER_NOR_EXECUTE: u64 = 0x8000_0000_0000_3003;

/// Walks: the indices from the root's down, the words that are read, with their tables, the rights that they grant, and the end.
#[rustfmt::skip]
const ENDS: [([u64; 4], &[(u64, u64)], [bool; 3], WalkEnd); 5] = [
    ([1, 2, 3, 4], &[(0x1000, 0x2007), (0x2000, NEITHER_USER_NOR_EXECUTE), (0x3000, 0x4007), (0x4000, 0x5007)],
        [true, false, false], WalkEnd::Page),
    ([1, 2, 3, 5], &[(0x1000, 0x2007), (0x2000, NEITHER_USER_NOR_EXECUTE), (0x3000, 0x4007), (0x4000, 0)],
        [false, false, false], WalkEnd::NotPresent),
    ([1, 7, 3, 4], &[(0x1000, 0x2007), (0x2000, 0x9002)], [true, false, true], WalkEnd::NotPresent),
    ([8, 2, 3, 4], &[(0x1000, 0x87)], [true, true, true], WalkEnd::HugePage),
    ([9, 2, 3, 4], &[(0x1000, 0x1_0007)], [true, true, true], WalkEnd::NoTable),
];

/// What an array holds before a walk.
const BEFORE: WalkEntry = WalkEntry { level: 9, table: 8, index: 7, word: 6 };

#[test]
fn walks_read_entries() {
    let memory = memory_of(16, &WALKS);
    for (indices, words, [write, user, execute], end) in ENDS {
        let address = VirtAddr::new_truncate(indices.iter().fold(0, |above, index| above << 9 | index) << 12 | 0xabc);
        let mut wanted = [BEFORE; MOST_LEVELS];
        for (n, (table, word)) in words.iter().enumerate() {
            wanted[n] = WalkEntry { level: 4 - n as u64, table: *table, index: indices[n], word: *word };
        }
        let mut entries = [BEFORE; MOST_LEVELS];
        let read = read_entries(&memory, &IdentityMapping, frame_at(0x1000), address, &mut entries);
        let rights = Rights { write, user, execute };
        assert_equal_in(indices, read, EntriesRead { count: words.len(), rights, end });
        assert_equal_in(indices, entries, wanted);
    }
}

#[test]
fn a_walk_without_a_root_reads_no_entry() {
    let (memory, mut entries) = (memory_of(16, &WALKS), [BEFORE; 4]);
    let read = read_entries(&memory, &IdentityMapping, frame_at(0x1_0000), VirtAddr::new_truncate(0), &mut entries);
    assert_equal(read, EntriesRead { count: 0, rights: Rights::ALL, end: WalkEnd::NoTable });
    assert_equal(entries, [BEFORE; 4]);
}

#[test]
#[should_panic(expected = "L::LEVELS <= entries.len()")]
fn a_walk_needs_room_for_each_level() {
    let memory = memory_of(16, &WALKS);
    read_entries(&memory, &IdentityMapping, frame_at(0x1000), VirtAddr::new_truncate(0), &mut [BEFORE; 3]);
}
