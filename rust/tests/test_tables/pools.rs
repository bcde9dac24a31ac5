//! Which frames a pool accepts.
use crate::prelude::*;
use x86_64_paging::tables::frame_alloc::{FrameAllocator, FramePool, PoolRefusal};

/// Compares the frames of a pool, in order, and asserts that there are no more.
fn check_frames(pool: &FramePool, frames: &[u64]) {
    assert_equal(pool.len(), frames.len());
    assert_equal(pool.frame_at(frames.len()), None);
    for (n, address) in frames.iter().enumerate() {
        assert_equal_in(n, pool.frame_at(n), Some(frame(*address)));
    }
}

/// Frames that are added to a pool with the limit 8, one after another, the results, and whether the pool has them then.
const ADDED: [(u64, Result<(), PoolRefusal>, bool); 5] = [
    (0x0, Err(PoolRefusal::Zero), false),
    (0x8000, Err(PoolRefusal::OutOfRange), false),
    (0x2000, Ok(()), true),
    (0x2000, Err(PoolRefusal::AlreadyFree), true),
    (0x7000, Ok(()), true),
];

#[test]
fn pool_refuses_what_it_cannot_serve() {
    let mut pool = unwrap(FramePool::new(8));
    check_frames(&pool, &[]);
    for (address, wanted, is_free) in ADDED {
        assert_equal_in(address, pool.try_add(frame(address)), wanted);
        assert_equal_in(address, pool.contains(frame(address)), is_free);
    }
    check_frames(&pool, &[0x2000, 0x7000]);
    assert!(!pool.contains(frame(0x3000)));
    // The limit may be any.
    let mut pool = unwrap(FramePool::new(0));
    let added = (pool.try_add(frame(0x0)), pool.try_add(frame(0x1000)));
    let wanted = (Err(PoolRefusal::Zero), Err(PoolRefusal::OutOfRange));
    assert_equal(added, wanted);
    assert_equal(pool.allocate_frame(), None);
}
