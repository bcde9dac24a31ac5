//! Frames that don't lie at the places of their numbers.

use super::call_lists::MAPPED;
use super::{add_replies, calls_of, compare, By, Row, State};
use crate::more::MoreOfVec;
use crate::prelude::*;
use x86_64_paging::support::Vec;
use x86_64_paging::ShiftMapping;

/// The first map, with the root's frame at place 0. The words are given with the addresses of their places.
static ROW: Row<'static> = Row {
    places: &[0, 1, 2, 3],
    free: &[0x10_1000, 0x10_2000, 0x10_3000],
    root: 0x10_0000,
    words: &[(0x0, 0, 0x10_1003), (0x1000, 0, 0x10_2003), (0x2000, 0, 0x10_3003), (0x3000, 1, 0x5003)],
    ..MAPPED
};

/// Executes a row's calls with frame 0x100000 at place 0, and compares the results.
fn check_shifted(row: &Row<'_>) {
    let mut memory = unwrap(PhysMemory::new(4));
    let mut pool = pool_of(0x104, row.free);
    let (root, mapping) = (frame_at(row.root), ShiftMapping::new(0x100));
    let calls = calls_of(row.calls);
    let (mut replies, mut wanted) = (Vec::new(), Vec::new());
    add_replies(row.calls, &mut wanted);
    assert!(unwrap(pool_fits(&memory, &mapping, root, &pool)));
    let ran = run_over(&mut memory, root, mapping, &mut pool, &calls, &mut replies);
    unwrap(ran);
    assert_equal(replies, wanted);
    let state = State { memory, pool, recorder: FlushRecorder::new() };
    compare(&state, row, By::Identity, "shifted")
}

#[test]
fn frames_lie_from_a_first_one_on() {
    let (mapping, root) = (ShiftMapping::new(0x100), frame_at(0x10_0000));
    assert!(!mapping.covers(frame_at(0xf_f000)) && mapping.covers(root));
    assert_equal(mapping.frame_to_pointer(root).number(), 0);
    check_shifted(&ROW)
}
