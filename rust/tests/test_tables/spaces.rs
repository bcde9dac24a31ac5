//! Tests of address spaces that share the upper half, or share in pairs, with four levels of page tables and with five.

use crate::common::*;
use crate::more::Hoard;
use x86_64_paging::spaces::{
    grouped_spaces_fit, grouped_spaces_fit_by_marks, spaces_fit, spaces_fit_by_marks, GroupIndices, GroupedSpace, SharedIndices,
    Space,
};
use x86_64_paging::structures::paging::mapper::MappedPageTableIn;
use x86_64_paging::structures::paging::RecursivePageTable;
use x86_64_paging::{
    keeps_shared_entries, run_call, run_call_in_space, Call, CallIn, LevelFiveFlags, NoLevelFive, SharedEntry, SizeCallIn,
};

/// The words of two spaces, which share the tables in frames 0x3000 and 0x4000. Frames 0x5000 and 0x6000 have a table of each.
const TWO: [u64; 15] = [0x1000, 256, 0x3003, 0x2000, 256, 0x3003, 0x3000, 0, 0x4003, 0x1000, 0, 0x5003, 0x2000, 0, 0x6003];

/// A root and a recursive index.
type Root = (u64, Option<u16>);

/// Returns the spaces with some roots.
fn spaces_at(roots: &[Root]) -> Vec<Space> {
    let space = |&(root, recursive): &Root| Space { root: frame_at(root), recursive: recursive.map(PageTableIndex::new_truncate) };
    roots.iter().map(space).collect()
}

/// Returns whether address spaces share the upper half, and a pool of these frames fits them.
fn fit<L: LevelCount>(memory: &PhysMemory, roots: &[Root], frames: &[u64]) -> bool {
    let (spaces, pool) = (spaces_at(roots), pool_with(16, frames));
    let (mapping, half) = (IdentityMapping, SharedIndices::UPPER_HALF);
    unwrap(spaces_fit::<L, _, _>(memory, &mapping, &spaces, half, &pool))
}

/// Returns the same by marks, all of them set at first, and whether an array has room.
fn fit_in<L: LevelCount>(memory: &PhysMemory, roots: &[Root], frames: &[u64], capacity: usize) -> bool {
    let spaces = spaces_at(roots);
    let (mapping, half) = (IdentityMapping, SharedIndices::UPPER_HALF);
    let mut marks = vec![true; memory.len()];
    spaces_fit_by_marks::<L, _, _>(memory, &mapping, &spaces, half, frames, capacity, &mut marks)
}

/// Returns the words of all tables of a memory.
fn words_in(memory: &PhysMemory) -> Vec<u64> {
    let table = |n| unwrap_some(memory.table(unwrap_some(memory.place_at(n))));
    (0..memory.len()).flat_map(|n| table(n).iter().map(|entry| entry.word()).collect::<std::vec::Vec<_>>()).collect()
}

/// More words, the roots, the frames of a pool, and whether these are address spaces that the pool fits.
type Row = (&'static [u64], &'static [Root], &'static [u64], bool);

const BOTH: [Root; 2] = [(0x1000, None), (0x2000, None)];

const ROWS: [Row; 19] = [
    (&[], &BOTH, &[0x7000], true),
    (&[], &[(0x1000, None)], &[0x2000], true),
    (&[], &[], &[0x1000], true),
    (&[0x8000, 256, 0x3003], &BEHIND, &[0x7000], true),
    // A root is met twice, in the list and below another one.
    (&[], &[(0x1000, None), (0x1000, None)], &[], false),
    (&[0x1000, 1, 0x2003], &BOTH, &[], false),
    // A table is in two spaces, but not below a shared index.
    (&[0x2000, 1, 0x5003], &BOTH, &[], false),
    (&[0x2000, 255, 0x4003], &BOTH, &[], false),
    // The words at a shared index differ.
    (&[0x2000, 256, 0x3001], &BOTH, &[], false),
    (&[0x1000, 511, 0x7003], &BOTH, &[], false),
    // A free frame is a root or a table.
    (&[], &BOTH, &[0x7000, 0x2000], false),
    (&[], &BOTH, &[0x6000], false),
    (&[], &BOTH, &[0x4000], false),
    // Each root may have a recursive index, shared or not.
    (&[0x1000, 511, 0x1003], &FIRST, &[0x7000], true),
    (&SELF_ENTRIES, &SHARED, &[0x7000], true),
    (&[0x2000, 5, 0x2003], &SECOND, &[], true),
    // The second root has the first one's self-entry, or none.
    (&[0x1000, 511, 0x1003, 0x2000, 511, 0x1003], &FIRST, &[], false),
    (&[], &SECOND, &[], false),
    (&[], &[(0x1000, None), (0x1_0000, None)], &[], false),
];

const BEHIND: [Root; 2] = [(0x8000, None), (0x1000, None)];

const FIRST: [Root; 2] = [(0x1000, Some(511)), (0x2000, None)];

const SECOND: [Root; 2] = [(0x1000, None), (0x2000, Some(5))];

const SHARED: [Root; 2] = [(0x1000, Some(511)), (0x2000, Some(511))];

const SELF_ENTRIES: [u64; 6] = [0x1000, 511, 0x1003, 0x2000, 511, 0x2003];

#[test]
fn spaces_share_the_upper_half() {
    for (words, roots, frames, wanted) in ROWS {
        let mut memory = memory_of(16, &TWO);
        set_words(&mut memory, words);
        let found = [
            fit::<FourLevels>(&memory, roots, frames),
            fit::<FiveLevels>(&memory, roots, frames),
            fit_in::<FourLevels>(&memory, roots, frames, 16),
            fit_in::<FiveLevels>(&memory, roots, frames, 16),
        ];
        assert_equal_in((words, roots, frames), found, [wanted; 4]);
    }
}

#[test]
fn shared_tables_have_as_many_levels() {
    // The word maps a page with four levels. With five, no word of its level may have HUGE_PAGE.
    let mut memory = memory_of(16, &TWO);
    set_words(&mut memory, &[0x3000, 1, 0x83]);
    let four = fit::<FourLevels>(&memory, &BOTH, &[]);
    let five = fit::<FiveLevels>(&memory, &BOTH, &[]);
    assert_equal((four, five), (true, false));
}

/// The frames of a pool, how many frames its array has room for, and whether it has room for them and the six tables.
const ROOMS: [(&[u64], usize, bool); 6] = [
    (&[], 6, true),
    (&[], 5, false),
    (&[0x8000, 0x7000], 8, true),
    (&[0x8000, 0x7000], 7, false),
    (&[0x7000], usize::MAX, true),
    (&[0x7001], 16, false),
];

#[test]
fn arrays_have_room_for_all_spaces() {
    let memory = memory_of(16, &TWO);
    for (frames, capacity, wanted) in ROOMS {
        let found = fit_in::<FourLevels>(&memory, &BOTH, frames, capacity);
        assert_equal_in((frames, capacity), found, wanted);
    }
}

/// The words of two processes, each with a kernel's root, in frames 0x1000 and 0x3000, and a user's root, in frames 0x2000 and
/// 0x4000. Each process has a table below index 0, both kernel's roots have one below index 256, and all roots one below 511.
const PROCESSES: [u64; 30] = [
    0x1000, 0, 0x7003, 0x1000, 256, 0x5003, 0x1000, 511, 0x6003, 0x2000, 0, 0x7003, 0x2000, 511, 0x6003, 0x3000, 0, 0x8003, 0x3000,
    256, 0x5003, 0x3000, 511, 0x6003, 0x4000, 0, 0x8003, 0x4000, 511, 0x6003,
];

/// Returns a range of indices, and the group in which roots are there.
fn group(from: u16, to: u16, group: u64) -> GroupIndices {
    GroupIndices { indices: SharedIndices { from, to }, group }
}

/// Returns the space below a root that is in groups.
fn member<'a>(root: u64, groups: &'a [GroupIndices]) -> GroupedSpace<'a> {
    let root = frame_at(root);
    GroupedSpace { space: Space { root, recursive: None }, groups }
}

/// Returns whether the processes share what they should, and a pool of these frames fits them, with memory for the test and with
/// an array of a capacity.
fn processes_fit<L: LevelCount>(memory: &PhysMemory, frames: &[u64], capacity: usize) -> (bool, bool) {
    let (all, kernels) = (group(511, 512, 0), group(256, 512, 1));
    let (first, second) = (group(0, 256, 2), group(0, 256, 3));
    let (first_kernel, second_kernel) = ([all, kernels, first], [all, kernels, second]);
    let (first_user, second_user) = ([all, first], [all, second]);
    let spaces =
        [member(0x1000, &first_kernel), member(0x2000, &first_user), member(0x3000, &second_kernel), member(0x4000, &second_user)];
    let (mapping, pool) = (IdentityMapping, pool_with(16, frames));
    let tested = grouped_spaces_fit::<L, _, _>(memory, &mapping, &spaces, &pool);
    let mut marks = vec![true; memory.len()];
    let tested_in = grouped_spaces_fit_by_marks::<L, _, _>(memory, &mapping, &spaces, frames, capacity, &mut marks);
    (unwrap(tested), tested_in)
}

/// More words, the frames of a pool, and whether the processes share what they should and the pool fits them.
const PAIRED: [(&[u64], &[u64], bool); 10] = [
    (&[], &[0x9000], true),
    // An index at which the first user's root is in no group belongs to it alone.
    (&[0x2000, 256, 0x9003], &[], true),
    // A root lacks a table that it shares, or has another one.
    (&[0x4000, 511, 0], &[], false),
    (&[0x2000, 0, 0x9003], &[], false),
    (&[0x3000, 256, 0x9003], &[], false),
    (&[0x3000, 511, 0x6001], &[], false),
    // A table is in two spaces that don't share it.
    (&[0x2000, 256, 0x5003], &[], false),
    (&[0x3000, 0, 0x7003, 0x4000, 0, 0x7003], &[], false),
    (&[0x3000, 1, 0x2003, 0x4000, 1, 0x2003], &[], false),
    // A free frame is a table.
    (&[], &[0x8000], false),
];

#[test]
fn processes_share_in_pairs() {
    for (words, frames, wanted) in PAIRED {
        let mut memory = memory_of(16, &PROCESSES);
        set_words(&mut memory, words);
        let four = processes_fit::<FourLevels>(&memory, frames, 16);
        let five = processes_fit::<FiveLevels>(&memory, frames, 16);
        assert_equal_in((words, frames), (four, five), ((wanted, wanted), (wanted, wanted)));
    }
    // There are eight tables.
    let memory = memory_of(16, &PROCESSES);
    let found = [8, 7].map(|capacity| processes_fit::<FourLevels>(&memory, &[], capacity).1);
    assert_equal(found, [true, false]);
}

#[test]
fn spaces_are_tested_where_there_is_memory() {
    // There are so many places that a test needs a block of its own for their marks.
    let memory = memory_of(4096, &TWO);
    let (spaces, pool) = (spaces_at(&BOTH), pool_with(16, &[]));
    let (mapping, half) = (IdentityMapping, SharedIndices::UPPER_HALF);
    let all = [group(half.from, half.to, 0)];
    let grouped = [member(0x1000, &all), member(0x2000, &all)];
    let hoard = unwrap(Hoard::past(&[]));
    let refused = (
        spaces_fit::<FourLevels, _, _>(&memory, &mapping, &spaces, half, &pool),
        grouped_spaces_fit::<FourLevels, _, _>(&memory, &mapping, &grouped, &pool),
        // No space needs no memory.
        spaces_fit::<FourLevels, _, _>(&memory, &mapping, &[], half, &pool),
    );
    drop(hoard);
    let tested = (
        spaces_fit::<FourLevels, _, _>(&memory, &mapping, &spaces, half, &pool),
        grouped_spaces_fit::<FourLevels, _, _>(&memory, &mapping, &grouped, &pool),
    );
    assert_equal(refused, (Err(AllocError), Err(AllocError), Ok(true)));
    assert_equal(tested, (Ok(true), Ok(true)));
}

/// Returns the 4KiB page that is the n-th below an index of the highest level.
fn page_below<L: LevelCount>(index: u64, n: u64) -> PageIn<Size4KiB, L> {
    PageIn::containing_address(VirtAddrIn::new_truncate(index << (3 + 9 * L::LEVELS) | n * 4096))
}

/// Returns a call that maps a 4KiB page below an index to the frame 0xf000.
fn map<L: LevelCount, P5: LevelFiveFlags<L>>(index: u64, flags: u64) -> CallIn<L, P5> {
    let flags = PageTableFlags::from_bits_retain(flags);
    CallIn::Of4KiB(SizeCallIn::MapTo { page: page_below(index, 1), frame: frame_at(0xf000), flags })
}

/// Returns a call that adds parent flags to the entries above a page below an index.
fn map_with<L: LevelCount, P5: LevelFiveFlags<L>>(index: u64, parent_flags: u64) -> CallIn<L, P5> {
    let [flags, parent_flags] = [0x3, parent_flags].map(PageTableFlags::from_bits_retain);
    CallIn::Of4KiB(SizeCallIn::MapToWithTableFlags { page: page_below(index, 1), frame: frame_at(0xf000), flags, parent_flags })
}

/// Returns a clean up of the pages from the first one below an index to the n-th below another.
fn clean_up<L: LevelCount, P5: LevelFiveFlags<L>>(first: u64, last: u64, n: u64) -> CallIn<L, P5> {
    CallIn::CleanUpRange(PageIn::range_inclusive(page_below(first, 0), page_below(last, n)))
}

/// Returns calls on the space with the root 0x1000, and whether each leaves the entries from 256 on, which it shares.
fn calls<L: LevelCount, P5: LevelFiveFlags<L>>() -> Vec<(CallIn<L, P5>, bool)> {
    let (below, flags) = (page_below(256, 0), PageTableFlags::from_bits_retain(0x7));
    let of_page = |call: SizeCallIn<Size4KiB, L, P5>| CallIn::Of4KiB(call);
    let set_level_five = P5::from_page_table_flags(flags).map(|flags| of_page(SizeCallIn::SetFlagsP5 { page: below, flags }));
    let frame = PhysFrame::containing_address(PhysAddr::new(0x4000_0000));
    let mut calls = vec![
        (map(0, 0x7), true),
        (map(255, 0x3), true),
        // The entry is there, and has PRESENT and WRITABLE. No other flag is a parent flag of its own accord.
        (map(256, 0x3), true),
        (map(256, 0x8000_0000_0000_0103), true),
        (map(256, 0x7), false),
        (map(257, 0x3), false),
        (map(511, 0x1), false),
        (map_with(255, 0x8000_0000_0000_0fff), true),
        (map_with(256, 0x1), true),
        (map_with(256, 0), true),
        (map_with(256, 0x21), false),
        // It isn't allowed, and would change nothing. But if it were, it would.
        (map_with(256, 0x8000_0000_0000_0003), false),
        (map_with(300, 0), true),
        (CallIn::Of1GiB(SizeCallIn::IdentityMap { frame, flags }), true),
        (of_page(SizeCallIn::Unmap { page: below }), true),
        (of_page(SizeCallIn::UpdateFlags { page: below, flags }), true),
        (of_page(SizeCallIn::SetFlagsP4 { page: below, flags }), L::LEVELS == 5),
        (of_page(SizeCallIn::SetFlagsP4 { page: page_below(0, 0), flags }), true),
        (of_page(SizeCallIn::SetFlagsP3 { page: below, flags }), true),
        (of_page(SizeCallIn::SetFlagsP2 { page: below, flags }), true),
        (of_page(SizeCallIn::TranslatePage { page: below }), true),
        (CallIn::Translate(below.start_address()), true),
        (CallIn::TranslateAddr(below.start_address()), true),
        (CallIn::CleanUp, false),
        (clean_up(0, 255, 0), true),
        (clean_up(0, 256, 0), false),
        (clean_up(256, 256, 0), false),
        (clean_up(511, 511, 0), false),
        (clean_up(256, 255, 0), true),
    ];
    calls.extend(set_level_five.map(|call| (call, false)));
    calls
}

/// Executes a call on the space with the root 0x1000. Returns the reply, the words of the memory, and whether both spaces fit the pool.
fn in_first_space<L: LevelCount, R>(
    execute: impl FnOnce(&mut MappedPageTableIn<IdentityMapping, L, PhysMemory>, &mut FramePool) -> R,
) -> (R, Vec<u64>, Result<bool, AllocError>) {
    let (mut memory, mut pool) = (memory_of(16, &TWO), pool_with(16, &[0x7000, 0x8000, 0x9000, 0xa000]));
    let reply = execute(&mut MappedPageTableIn::new(&mut memory, frame_at(0x1000), IdentityMapping), &mut pool);
    let (spaces, mapping) = (spaces_at(&BOTH), IdentityMapping);
    let still_fit = spaces_fit::<L, _, _>(&memory, &mapping, &spaces, SharedIndices::UPPER_HALF, &pool);
    (reply, words_in(&memory), still_fit)
}

/// Executes each call on one of two spaces, with the test of shared entries and without it.
fn call_in_spaces<L: LevelCount + Debug, P5: LevelFiveFlags<L> + Debug + PartialEq>() {
    let half = SharedIndices::UPPER_HALF;
    for (call, keeps) in calls::<L, P5>() {
        let said = in_first_space(|mapper, _| keeps_shared_entries(mapper, &call, half));
        let (reply, words, still_fit) = in_first_space(|mapper, pool| run_call_in_space(mapper, pool, half, call));
        assert_equal_in(call, (said.0, still_fit), (keeps, Ok(true)));
        let (plain_reply, plain_words, _) = in_first_space::<L, _>(|mapper, pool| run_call(mapper, pool, call));
        let wanted = if keeps { (Ok(plain_reply), plain_words) } else { (Err(SharedEntry), said.1) };
        assert_equal_in(call, (reply, words), wanted);
    }
}

#[test]
fn calls_in_a_space_keep_the_others() {
    call_in_spaces::<FourLevels, NoLevelFive>();
    call_in_spaces::<FiveLevels, PageTableFlags>();
}

#[test]
fn the_entry_for_itself_reads_as_none() {
    let mut memory = memory_of(16, &TWO);
    set_words(&mut memory, &SELF_ENTRIES);
    let index = PageTableIndex::new(511);
    let mapper = RecursivePageTable::new_unchecked(ActiveMemory::new(&mut memory, frame_at(0x1000)), index);
    let calls: [Call; 3] = [map(511, 0x3), map_with(511, 0), map(256, 0x3)];
    let said = calls.map(|call| keeps_shared_entries(&mapper, &call, SharedIndices::UPPER_HALF));
    assert_equal(said, [false, true, true]);
}
