//! Tests of memories with gaps between their places, and of memories whose tables are lent. A place is the index of a
//! table in memory.

use super::{fits, is_valid, Pool};
use crate::common::*;
use crate::more::MoreOfVec;
use x86_64_paging::support::Vec;
use x86_64_paging::tables::phys_memory::page_walk;

/// Creates a memory with places in ascending order.
fn memory_at(places: &[u64]) -> PhysMemory {
    unwrap_some(PhysMemory::with_places(places).ok())
}

/// Compares whether there are tables at the places with these numbers, and whether all their entries are unused.
fn check_tables<T: TableMemory>(memory: &T, numbers: &[u64], wanted: Option<bool>) {
    for number in numbers {
        let is_empty = match memory.table(FramePlace::new(*number)) {
            Some(table) => Some(table.is_empty()),
            None => None,
        };
        assert_equal_in(*number, is_empty, wanted);
    }
}

/// Compares the places of a memory with numbers. Asserts that there is a table of unused entries at each of them, and
/// none at the others.
fn check_places<T: TableMemory>(memory: &T, places: &[u64], others: &[u64]) {
    assert_equal(memory.len(), places.len());
    assert_equal(memory.place_at(places.len()), None);
    for (n, number) in places.iter().enumerate() {
        assert_equal_in(n, memory.place_at(n), Some(FramePlace::new(*number)));
    }
    check_tables(memory, places, Some(true));
    check_tables(memory, others, None);
}

/// Returns why places are refused, if they are.
fn refusal(places: &[u64]) -> Option<PlacesRefusal> {
    PhysMemory::with_places(places).err()
}

const REFUSED: [&[u64]; 6] = [&[1, 1], &[2, 1], &[0, 1, 2, 2], &[0, 2, 1, 3], &[u64::MAX, 0], &[u64::MAX, u64::MAX]];

#[test]
fn places_rise() {
    for places in REFUSED {
        let wanted = Some(PlacesRefusal::NotIncreasing);
        assert_equal_in(places, refusal(places), wanted);
    }
    let wanted = PlacesRefusal::Alloc(AllocError);
    assert_equal(PlacesRefusal::from(AllocError), wanted);
}

/// Numbers of places, and other numbers.
static PLACES: [(&[u64], &[u64]); 9] = [
    (&[], &[0, 1, u64::MAX]),
    (&[0], &[1, u64::MAX]),
    (&[0, 1, 2], &[3, 4, u64::MAX]),
    (&[0, 1, 3], &[2, 4]),
    (&[7], &[0, 6, 8, u64::MAX]),
    (&[u64::MAX], &[0, 1, u64::MAX - 1]),
    (&[0, u64::MAX], &[1, u64::MAX - 1]),
    (&[1, 2, 0x80000, 0x80001], &[0, 3, 4, 0x7ffff, 0x80002, 0x1_0000_0001]),
    (&[2, 4, 6, 8, 1 << 39], &[0, 1, 3, 5, 7, 9, 10, 1 << 40]),
];

#[test]
fn memory_has_the_places_of_a_list() {
    for (places, others) in &PLACES {
        check_places(&memory_at(places), places, others);
    }
    check_places(&memory_of(3, &[]), &[0, 1, 2], &[3, u64::MAX]);
    assert!(!is_valid((4, false), &memory_at(&[])));
}

/// Creates a number of empty tables.
fn empty_tables(count: usize) -> Vec<PageTable> {
    let mut tables = Vec::new();
    for _ in 0..count {
        unwrap(tables.push(PageTable::new()));
    }
    tables
}

#[test]
fn each_table_of_a_slice_has_its_place() {
    for (places, others) in &PLACES[..3] {
        let mut tables = empty_tables(places.len());
        check_places(&LentMemory::new(&mut tables), places, others);
    }
}

/// The words of a guest whose memory begins at frame 0x100. Each is given with the place of its table, counted from
/// there, times 0x1000.
const GUEST: [[u64; 3]; 4] = [[0, 0, 0x10_1003], [0x1000, 0, 0x10_2003], [0x2000, 0, 0x10_3003], [0x3000, 1, 0x5003]];

#[test]
fn a_guest_is_walked_where_its_tables_are() {
    let mut tables = empty_tables(4);
    let mut memory = LentMemory::new(&mut tables);
    for word in GUEST {
        set_words(&mut memory, &word);
    }
    let (mapping, root) = (ShiftMapping::new(0x100), frame_at(0x10_0000));
    let address = VirtAddr::new_truncate(0x1abc);
    let walked = unwrap_some(page_walk(&memory, &mapping, root, address));
    assert_equal(walked.address.as_u64(), 0x5abc);
    drop(memory);
    for [frame, index, word] in GUEST {
        let table = unwrap_some(tables.get(frame as usize / 0x1000));
        let found = table[PageTableIndex::new_truncate(index as u16)].word();
        assert_equal_in(frame, found, word);
    }
}

/// Returns a number of places with a gap after each, from a first one on.
fn places_with_gaps(first: u64, count: u64) -> Vec<u64> {
    let mut places = Vec::new();
    for k in 0..count {
        unwrap(places.push(first.wrapping_add(k.wrapping_mul(2))));
    }
    places
}

#[test]
fn tables_lie_between_many_gaps() {
    for first in [0, 1] {
        let places = places_with_gaps(first, 1000);
        let gaps = places_with_gaps(1_u64.wrapping_sub(first), 1000);
        check_places(&memory_at(&places), &places, &gaps);
    }
    let memory = memory_at(&places_with_gaps(1, 10_000));
    assert_equal(memory.len(), 10_000);
    check_tables(&memory, &[1, 3, 10_001, 19_999], Some(true));
    let gaps = [0, 2, 4, 10_000, 10_002, 19_998, 20_000];
    check_tables(&memory, &gaps, None);
    let mut places = places_with_gaps(1, 1_000_000);
    unwrap(places.push(0));
    let wanted = Some(PlacesRefusal::NotIncreasing);
    assert_equal(refusal(&places), wanted);
}

/// Each of several places after gaps, with the others.
static CHANGED: [(u64, [u64; 3]); 4] =
    [(1, [2, 0x8_0000, 0x8_0001]), (2, [1, 0x8_0000, 0x8_0001]), (0x8_0000, [1, 2, 0x8_0001]), (0x8_0001, [1, 2, 0x8_0000])];

#[test]
fn tables_change_at_places_after_gaps() {
    for (changed, others) in &CHANGED {
        let mut memory = memory_at(&[1, 2, 0x8_0000, 0x8_0001]);
        set_words(&mut memory, &[*changed * 0x1000, 5, 0x2003]);
        check_tables(&memory, &[*changed], Some(false));
        check_tables(&memory, others, Some(true));
        assert!(memory.table_mut(FramePlace::new(3)).is_none());
    }
}

#[test]
fn hierarchies_are_valid_after_gaps() {
    let mut memory = memory_at(&[1, 3, 0x8_0000, 1 << 39]);
    set_words(&mut memory, &[0x1000, 0, 0x8_0000_0000_0003]);
    set_words(&mut memory, &[0x8_0000_0000_0000, 0, 0x8000_0003]);
    set_words(&mut memory, &[0x8000_0000, 1, 0x40_0083]);
    assert!(is_valid((4, false), &memory));
    let (root, address) = (frame_at(0x1000), VirtAddr::new_truncate(0x23_4567));
    let walked = unwrap_some(page_walk(&memory, &IdentityMapping, root, address));
    assert_equal(walked.address.as_u64(), 0x43_4567);
    assert!(walked.write && !walked.user);
    set_words(&mut memory, &[0x8000_0000, 0, 0x2003]);
    assert!(!is_valid((4, false), &memory));
}

static POOLS: [(Pool, bool); 5] = [
    ((0x8_0002, &[0x3000, 0x8000_1000]), true),
    ((0x8_0002, &[0x2000]), false),
    ((0x8_0002, &[0x8000_0000]), false),
    ((0x8_0003, &[0x8000_2000]), false),
    ((0x8_0000, &[0x3000]), false),
];

#[test]
fn pools_fit_after_gaps() {
    let mut memory = memory_at(&[1, 3, 0x8_0000, 0x8_0001]);
    set_words(&mut memory, &[0x1000, 0, 0x8000_0003]);
    for (pool, wanted) in &POOLS {
        assert_equal_in(*pool, fits((4, false), &memory, *pool), *wanted);
    }
}
