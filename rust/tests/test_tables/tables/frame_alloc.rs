//! Tests of pools, and of frames that a frame store hands out and takes back.

mod lent_pool;

use crate::common::*;

/// Compares the frames of a pool, in order, and asserts that there are no more.
fn check_frames(pool: &FramePool, frames: &[u64]) {
    assert_equal(pool.len(), frames.len());
    assert_equal(pool.frame_at(frames.len()), None);
    for (n, frame) in frames.iter().enumerate() {
        assert_equal_in(n, pool.frame_at(n), Some(frame_at(*frame)));
    }
}

#[test]
fn frames_come_back_to_the_front() {
    let (first, second) = (frame_at(0x2000), frame_at(0x3000));
    let mut pool = unwrap(FramePool::new(8));
    assert!(pool.try_add(first).is_ok());
    assert!(pool.try_add(second).is_ok());
    assert_equal(take_and_put_back(&mut pool), Some(first));
    let taken = (pool.allocate_frame(), pool.allocate_frame());
    assert_equal(taken, (Some(first), Some(second)));
    assert_equal(pool.allocate_frame(), None);
    pool.deallocate_frame(first);
    pool.deallocate_frame(second);
    check_frames(&pool, &[0x3000, 0x2000]);
}

/// Frames of two pools, and whether the pools are equal.
const EQUAL: [(&[u64], &[u64], bool); 5] = [
    (&[], &[], true),
    (&[0x2000], &[], false),
    (&[0x2000], &[0x2000], true),
    (&[0x2000], &[0x3000], false),
    (&[0x2000, 0x3000, 0x4000], &[0x2000, 0x4000, 0x3000], false),
];

#[test]
fn pools_are_equal_as_lists() {
    for (one, other, wanted) in EQUAL {
        // The limits don't count.
        let first = pool_with(8, one);
        let second = pool_with(16, other);
        assert_equal_in((one, other), first == second, wanted);
    }
}

/// Takes the first frame of a store and puts it back.
fn take_and_put_back<F: FrameStore + ?Sized>(store: &mut F) -> Option<PhysFrame<Size4KiB>> {
    let frame = store.allocate_frame()?;
    store.deallocate_frame(frame);
    Some(frame)
}
