//! Tests of hierarchies and of pools that fit them, over memories that are given as words, with four levels of page tables
//! and with five. Here is what `pagetab` doesn't show: see `tests/pagetab/validity.txt`.
mod active;
mod alike;
mod places;
mod segments;

use crate::common::*;
use x86_64_paging::tables::phys_memory::{
    is_valid_by_marks, is_valid_hierarchy, is_valid_hierarchy_57, is_valid_recursive, is_valid_recursive_57, pool_fits,
    pool_fits_57, pool_fits_by_marks, pool_fits_recursive, pool_fits_recursive_57,
};

/// The number of levels, and whether there is the recursive index 510 (that of the root's entry for itself).
type Form = (u64, bool);

const FORMS: [Form; 4] = [(4, false), (5, false), (4, true), (5, true)];

/// Returns whether words are a valid hierarchy below the root in frame 0x1000.
fn is_valid(form: Form, memory: &PhysMemory) -> bool {
    let (root, index) = (frame_at(0x1000), PageTableIndex::new(510));
    let mapping = IdentityMapping;
    let tested = match form {
        (4, false) => is_valid_hierarchy(memory, &mapping, root),
        (4, true) => is_valid_recursive(memory, root, index),
        (_, false) => is_valid_hierarchy_57(memory, &mapping, root),
        (_, true) => is_valid_recursive_57(memory, root, index),
    };
    unwrap(tested)
}

/// Returns the same by marks, all of them set at first, without a recursive index.
fn is_valid_in<L: LevelCount>(memory: &PhysMemory) -> bool {
    let mut marks = unwrap(vec_in![true; memory.len()]);
    is_valid_by_marks::<L, _, _>(memory, &IdentityMapping, frame_at(0x1000), &mut marks)
}

/// The words of a hierarchy with five levels, with a 4KiB page, with writable tables and with a self-entry at the
/// index 510.
const RECURSIVE_57: [u64; 18] =
    [0x1000, 510, 0x1003, 0x1000, 0, 0x2003, 0x2000, 0, 0x3003, 0x3000, 0, 0x4003, 0x4000, 0, 0x5003, 0x5000, 1, 0x6001];

/// Words, and whether they are a valid hierarchy in each form.
const HIERARCHIES: [(&[u64], [bool; 4]); 7] = [
    (&[], [true, true, false, false]),
    (&GIANT, [true, false, false, false]),
    (&FOUR_TABLES, [true, false, false, false]),
    (&[0x1000, 0, 0x1003], [false; 4]),
    (&RECURSIVE_57, [false, false, true, true]),
    (&NAMED_TWICE, [false, false, true, false]),
    (&[0x1000, 510, 0x1002], [false; 4]),
];

/// Words of which the last one maps a page of 1GiB with four levels.
const GIANT: [u64; 6] = [0x1000, 0, 0x2003, 0x2000, 0, 0x83];

/// Words of which the last one maps a page with four levels. With five it names a table that the memory lacks.
const FOUR_TABLES: [u64; 12] = [0x1000, 0, 0x2003, 0x2000, 0, 0x3003, 0x3000, 0, 0x4003, 0x4000, 0, 0x9003];

/// Words of which the last two name one table with five levels.
const NAMED_TWICE: [u64; 18] =
    [0x1000, 510, 0x1003, 0x1000, 0, 0x2003, 0x2000, 0, 0x3003, 0x3000, 0, 0x4003, 0x4000, 0, 0x5003, 0x4000, 1, 0x5003];

#[test]
fn hierarchies_are_valid_with_as_many_levels() {
    for (words, wanted) in HIERARCHIES {
        let memory = memory_of(8, words);
        let found = FORMS.map(|form| is_valid(form, &memory));
        assert_equal_in(words, found, wanted);
        let by_marks = is_valid_in::<FourLevels>(&memory);
        assert_equal_in(words, by_marks, wanted[0]);
        let by_marks = is_valid_in::<FiveLevels>(&memory);
        assert_equal_in(words, by_marks, wanted[1]);
    }
}

/// The limit and the frames of a pool.
type Pool = (u64, &'static [u64]);

/// Returns whether a pool fits the hierarchy below the root in frame 0x1000.
fn fits(form: Form, memory: &PhysMemory, (limit, frames): Pool) -> bool {
    let (root, index) = (frame_at(0x1000), PageTableIndex::new(510));
    let mapping = IdentityMapping;
    let pool = pool_with(limit, frames);
    let tested = match form {
        (4, false) => pool_fits(memory, &mapping, root, &pool),
        (4, true) => pool_fits_recursive(memory, root, index, &pool),
        (_, false) => pool_fits_57(memory, &mapping, root, &pool),
        (_, true) => pool_fits_recursive_57(memory, root, index, &pool),
    };
    unwrap(tested)
}

/// The words of a hierarchy with four tables, one of them named without `PRESENT`.
const TABLES: [u64; 15] = [0x1000, 0, 0x2003, 0x2000, 0, 0x3003, 0x3000, 0, 0x4002, 0x3000, 1, 0x5083, 0x4000, 0, 0x6003];

/// This with five levels and five tables.
const TABLES_57: [u64; 15] = [0x1000, 0, 0x2003, 0x2000, 0, 0x3003, 0x3000, 0, 0x4003, 0x4000, 0, 0x5002, 0x5000, 0, 0x6003];

/// The words of a hierarchy with three tables and with a self-entry at the index 510.
const RECURSIVE: [u64; 9] = [0x1000, 510, 0x1003, 0x1000, 0, 0x2003, 0x2000, 0, 0x3002];

/// Forms, words, pools whose limit isn't the number of frames in memory, and whether they fit.
static POOLS: [(Form, &[u64], Pool, bool); 14] = [
    ((4, false), &[], (9, &[0x7000, 0x8000]), false),
    ((4, false), &[], (0, &[]), true),
    ((4, false), &[0x1000, 0, 0x8003], (16, &[0x2000]), false),
    ((4, false), &TABLES, (5, &[]), true),
    ((4, false), &TABLES, (4, &[]), false),
    ((4, false), &TABLES, (1, &[]), false),
    ((5, false), &TABLES_57, (6, &[]), true),
    ((5, false), &TABLES_57, (5, &[]), false),
    ((4, true), &RECURSIVE, (4, &[]), true),
    ((4, true), &RECURSIVE, (3, &[]), false),
    ((4, true), &RECURSIVE, (9, &[0x8000]), false),
    ((5, true), &RECURSIVE_57, (6, &[]), true),
    ((5, true), &RECURSIVE_57, (5, &[]), false),
    ((5, true), &RECURSIVE_57, (9, &[0x8000]), false),
];

#[test]
fn pools_have_limits() {
    for (form, words, pool, wanted) in &POOLS {
        let memory = memory_of(8, words);
        let found = fits(*form, &memory, *pool);
        assert_equal_in((*form, *words, *pool), found, *wanted);
    }
    // The root is past the memory.
    let memory = memory_of(1, &[]);
    for form in FORMS {
        let fits = fits(form, &memory, (8, &[]));
        assert!(!fits && !is_valid(form, &memory));
    }
}

/// The addresses of a pool's frames, how many frames its array has room for, and whether it fits.
type Room = (&'static [u64], usize, bool);

/// There are three tables below the root.
const ROOMS: [Room; 13] = [
    (&[], 3, true),
    (&[], 2, false),
    (&[0x7000, 0x6000], 5, true),
    (&[0x7000, 0x6000], 4, false),
    (&[0x7000], usize::MAX, true),
    (&[0x7000], 0, false),
    (&[0x7000, 0x7000], 8, false),
    (&[0x7001], 8, false),
    (&[0x10_0000_0000_7000], 8, false),
    (&[0x8000], 8, false),
    (&[0x7000, 0x4000], 8, false),
    (&[0x1000], 8, false),
    (&[0], 8, false),
];

/// There are four tables below the root.
const ROOMS_57: [Room; 3] = [(&[0x7000], 5, true), (&[0x7000], 4, false), (&[0x5000], 8, false)];

/// Compares whether pools fit a hierarchy by marks, all of them set at first.
fn check_rooms<L: LevelCount>(words: &[u64], rooms: &[Room]) {
    let (memory, mapping, root) = (memory_of(8, words), IdentityMapping, frame_at(0x1000));
    for (frames, room, wanted) in rooms {
        let mut marks = unwrap(vec_in![true; memory.len()]);
        let fits = pool_fits_by_marks::<L, _, _>(&memory, &mapping, root, frames, *room, &mut marks);
        assert_equal_in((*frames, *room), fits, *wanted);
    }
}

#[test]
fn pools_fit_in_their_rooms() {
    check_rooms::<FourLevels>(&TABLES, &ROOMS);
    check_rooms::<FiveLevels>(&TABLES_57, &ROOMS_57);
}
