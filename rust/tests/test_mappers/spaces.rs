//! Address spaces that share the upper half, with four and five levels of tables, and processes of a kernel.

use crate::more::MoreOfVec;
use x86_64_paging::support::Vec;

use crate::prelude::*;
use crate::uses::processes::{end, map_in, start};
use crate::uses::run_in_space::call_on;
use x86_64_paging::spaces::{give_up_space, new_space, spaces_fit, GiveUpError, SharedIndices, Space};

/// Returns an address space without a recursive index.
fn space(root: Frame) -> Space {
    let recursive = None;
    Space { root, recursive }
}

/// Aborts unless a hierarchy is an address space that the pool fits, together with the other one, if that differs.
fn assert_fit<L: LevelCount>(world: &World, root: Frame, other: Frame) {
    let (both, half) = ([space(root), space(other)], SharedIndices::UPPER_HALF);
    let spaces = if root == other { &both[..1] } else { &both[..] };
    let (memory, pool) = (&world.memory, &world.pool);
    let fit = spaces_fit::<L, _, _>(memory, &IdentityMapping, spaces, half, pool);
    assert!(unwrap(fit));
    world.assert_fits::<L>(root);
}

/// Aborts unless the pool serves a frame.
fn assert_served(frame: Frame, pool: &FramePool) {
    let number = frame.start_address().as_u64() / 0x1000;
    assert!(0 < number && number < pool.limit());
}

/// Executes a call on the first of two address spaces, which may be the same.
fn call<L: LevelCount, P5: LevelFiveFlags<L>>(world: &mut World, (root, other): (Frame, Frame), call: CallIn<L, P5>) {
    assert_fit::<L>(world, root, other);
    let (memory, pool) = (&mut world.memory, &mut world.pool);
    call_on(memory, IdentityMapping, root, pool, call);
}

/// Creates an address space that shares the upper half of another one, and returns its root.
fn add_space<L: LevelCount>(world: &mut World, root: Frame) -> Frame {
    assert_fit::<L>(world, root, root);
    let (space, half) = (space(root), SharedIndices::UPPER_HALF);
    let (memory, pool) = (&mut world.memory, &mut world.pool);
    let new = new_space::<L, _, _, _>(memory, &IdentityMapping, &space, half, None, pool);
    unwrap_some(new)
}

/// Unmaps a page of the first of two address spaces, frees its tables, and gives it up.
fn end_space<L: LevelCount, P5: LevelFiveFlags<L>>(world: &mut World, (root, other): (Frame, Frame), mapped: u64) {
    let unmap: CallIn<L, P5> = CallIn::Of4KiB(SizeCallIn::Unmap { page: page(mapped) });
    call(world, (root, other), unmap);
    let lower = PageIn::range_inclusive(page(0), page(L::POSITION_COUNT / 2 - 1));
    let clean_up: CallIn<L, P5> = CallIn::CleanUpRange(lower);
    call(world, (root, other), clean_up);
    assert_fit::<L>(world, root, other);
    assert_served(root, &world.pool);
    let (space, half) = (space(root), SharedIndices::UPPER_HALF);
    let (memory, pool) = (&mut world.memory, &mut world.pool);
    let ended = give_up_space::<L, _, _, _>(memory, &IdentityMapping, &space, half, pool);
    unwrap(ended);
}

/// Pages that are mapped: whether through the second of two spaces, whether in the upper half, at which offset in the
/// half, to which frame, and where the page's walks in both spaces then arrive.
const ROWS: [(bool, bool, u64, u64, (u64, u64)); 3] = [
    (false, true, 0x1000, 0x10_1000, (0x10_1000, 0x10_1000)),
    (true, true, 0x2000, 0x10_2000, (0x10_2000, 0x10_2000)),
    (true, false, 0x1000, 0x30_0000, (0x20_0000, 0x30_0000)),
];

/// Returns the words of the tables at the places up to but excluding `end`.
fn words(world: &World, end: u64) -> Vec<u64> {
    let mut words = Vec::new();
    for place in 0..end {
        let table = unwrap_some(world.memory.table(FramePlace::new(place)));
        for index in 0..512 {
            unwrap(words.push(table[index].word()));
        }
    }
    words
}

/// Maps the page of a row in one of two address spaces, and compares where the page's walks in both arrive.
fn map_row<L: LevelCount, P5: LevelFiveFlags<L>>(
    world: &mut World,
    (first, second): (Frame, Frame),
    (is_second, is_upper, offset, to, wanted): (bool, bool, u64, u64, (u64, u64)),
) {
    let start = if is_upper { L::POSITION_COUNT / 2 } else { 0 };
    let address = start.wrapping_add(offset);
    let roots = if is_second { (second, first) } else { (first, second) };
    call(world, roots, map::<L, P5>(address, to));
    let memory = &world.memory;
    assert_equal(walk::<L, _>(memory, first, address), Some(wanted.0));
    assert_equal(walk::<L, _>(memory, second, address), Some(wanted.1));
}

/// Maps pages in two address spaces that share the upper half, and ends one of them.
fn share_the_upper_half<L: LevelCount, P5: LevelFiveFlags<L>>() {
    let (first, upper) = (frame(0x1000), L::POSITION_COUNT / 2);
    let mut world = World::new(&[], (2, PLACES));
    for (address, to) in [(upper, 0x10_0000), (0x1000, 0x20_0000)] {
        call(&mut world, (first, first), map::<L, P5>(address, to));
    }
    let free = world.pool.len();
    let second = add_space::<L>(&mut world, first);
    for row in ROWS {
        map_row::<L, P5>(&mut world, (first, second), row);
    }
    let used = PLACES.saturating_sub(free as u64);
    let before = words(&world, used);
    end_space::<L, P5>(&mut world, (second, first), 0x1000);
    assert_fit::<L>(&world, first, first);
    assert_equal(world.pool.len(), free);
    assert_equal(words(&world, used), before);
}

#[test]
fn spaces_share_the_upper_half() {
    share_the_upper_half::<FourLevels, NoLevelFive>();
    share_the_upper_half::<FiveLevels, PageTableFlags>();
}

/// Starts a process, beside another one, or beside the kernel alone.
fn start_one(world: &mut World, kernel: Frame, other: Frame) -> Frame {
    assert_fit::<FourLevels>(world, kernel, other);
    unwrap_some(start(&mut world.memory, kernel, &mut world.pool))
}

/// Maps a page of a process, and doesn't map one of the kernel's half.
fn map_one(world: &mut World, (process, kernel): (Frame, Frame), to: u64) {
    for (address, is_mapped) in [(0x1000, true), (0xffff_8000_0000_1000, false)] {
        assert_fit::<FourLevels>(world, process, kernel);
        let (memory, pool) = (&mut world.memory, &mut world.pool);
        let flags = PageTableFlags::PRESENT;
        let reply = map_in(memory, process, page(address), frame(to), flags, pool);
        assert_equal_in(address, reply != Reply::NotAllowed, is_mapped);
    }
}

/// Ends the first of two processes with these pages.
fn end_one(world: &mut World, (process, other): (Frame, Frame), pages: &[Page<Size4KiB>]) -> Result<(), GiveUpError> {
    assert_fit::<FourLevels>(world, process, other);
    assert_served(process, &world.pool);
    end(&mut world.memory, process, pages, &mut world.pool)
}

/// Doesn't end a process while a page is mapped, and then ends it.
fn end_mapped(world: &mut World, process: Frame, other: Frame) {
    let ended = end_one(world, (process, other), &[]);
    assert_equal(ended, Err(GiveUpError::EntryUsed));
    let ended = end_one(world, (process, other), &[page(0x1000)]);
    assert_equal(ended, Ok(()));
}

/// Compares where the page walk of an address arrives in a process.
fn check_walk(world: &World, process: Frame, (address, to): (u64, u64)) {
    let found = walk::<FourLevels, _>(&world.memory, process, address);
    assert_equal_in(address, found, Some(to));
}

#[test]
fn a_process_ends_while_another_runs() {
    let mut world = World::new(&[], (2, PLACES));
    let kernel = frame(0x1000);
    let shared = map::<FourLevels, NoLevelFive>(0xffff_8000_0000_0000, 0x10_0000);
    call(&mut world, (kernel, kernel), shared);
    let free = world.pool.len();
    let first = start_one(&mut world, kernel, kernel);
    let second = start_one(&mut world, kernel, first);
    map_one(&mut world, (first, kernel), 0x20_0000);
    map_one(&mut world, (second, kernel), 0x30_0000);
    end_mapped(&mut world, first, second);
    check_walk(&world, second, (0x1000, 0x30_0000));
    check_walk(&world, second, (0xffff_8000_0000_0000, 0x10_0000));
    end_mapped(&mut world, second, kernel);
    assert_equal(world.pool.len(), free);
}
