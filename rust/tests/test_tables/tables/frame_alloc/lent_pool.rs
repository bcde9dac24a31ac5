//! Tests of pools in lent arrays, which are stacks.

use super::take_and_put_back;
use crate::common::*;

/// The entries of each array when it is lent.
const ENTRIES: [u64; 4] = [0x2000, 0x3000, 0x5000, 0x7000];

/// Creates a pool whose free frames are the first `count` entries.
fn pool_in<'a>(entries: &'a mut [u64], count: &'a mut usize) -> LentPool<'a> {
    LentPool::new(entries, count, OwnFrames::of())
}

/// Takes all frames of a pool with a number of free frames, and compares them, in order, and what the array holds then.
fn check_taken(free: usize, frames: &[u64]) {
    let (mut entries, mut count) = (ENTRIES, free);
    let mut pool = pool_in(&mut entries, &mut count);
    for frame in frames {
        assert_equal_in(free, pool.allocate_frame(), Some(frame_at(*frame)));
    }
    assert_equal_in(free, pool.allocate_frame(), None);
    drop(pool);
    assert_equal_in(free, (entries, count), (ENTRIES, 0));
}

/// Takes the two frames on top of a pool, or as many as there are, and puts them back in the order in which they came.
fn swap_two(pool: &mut LentPool<'_>) {
    if let Some(first) = pool.allocate_frame() {
        let second = pool.allocate_frame();
        pool.deallocate_frame(first);
        if let Some(second) = second {
            pool.deallocate_frame(second);
        }
    }
}

/// Puts frames back into a pool with a number of free frames, and compares what the array holds then.
fn check_put_back(free: usize, top: Option<u64>, wanted: [u64; 4]) {
    let (mut entries, mut count) = (ENTRIES, free);
    let mut pool = pool_in(&mut entries, &mut count);
    // The second time, the frame that came back is on top.
    for _ in 0..2 {
        let taken = take_and_put_back(&mut pool);
        assert_equal_in(free, taken, top.map(frame_at));
    }
    swap_two(&mut pool);
    drop(pool);
    assert_equal_in(free, (entries, count), (wanted, free));
}

/// For each number of free frames, from 0 on: the frames in the order in which they are handed out, and the entries after
/// the two frames on top changed places.
const STACKS: [(&[u64], [u64; 4]); 5] = [
    (&[], [0x2000, 0x3000, 0x5000, 0x7000]),
    (&[0x2000], [0x2000, 0x3000, 0x5000, 0x7000]),
    (&[0x3000, 0x2000], [0x3000, 0x2000, 0x5000, 0x7000]),
    (&[0x5000, 0x3000, 0x2000], [0x2000, 0x5000, 0x3000, 0x7000]),
    (&[0x7000, 0x5000, 0x3000, 0x2000], [0x2000, 0x3000, 0x7000, 0x5000]),
];

#[test]
fn lent_pools_are_stacks() {
    for free in 0..5 {
        let (frames, swapped) = STACKS[free];
        check_taken(free, frames);
        check_put_back(free, frames.first().copied(), swapped);
    }
}
