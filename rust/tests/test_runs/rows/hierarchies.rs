//! Two hierarchies in one memory, which take their tables from one pool.
use super::{check, By, Row, State, Word};
use crate::call_rows::CallRow::{CleanUp, Small};
use crate::call_rows::PageCallRow::{MapTo, Unmap};
use crate::prelude::*;

/// The words that map the page 0x1000 of the second hierarchy to the frame 0xa000.
const TWO: [Word; 4] = [(0x2000, 0, 0x6001), (0x6000, 0, 0x7001), (0x7000, 0, 0x8001), (0x8000, 1, 0xa001)];

/// A row for both hierarchies.
const BOTH: Row<'static> = Row {
    places: &[0, 1, 2, 3, 4, 5, 6, 7, 8],
    free: &[0x3000, 0x4000, 0x5000, 0x6000, 0x7000, 0x8000],
    root: 0x1000,
    calls: &[],
    words: &TWO,
    full: &[],
    left: &[],
    flushed: &[],
};

/// Calls on the hierarchies in turn, and the results in the memory of both.
static STEPS: [Row<'static>; 4] = [
    Row {
        calls: &[(Small(MapTo(0x1000, 0x9000, 0x1)), Answered(Done(0x9000)))],
        words: &[(0x1000, 0, 0x3001), (0x3000, 0, 0x4001), (0x4000, 0, 0x5001), (0x5000, 1, 0x9001)],
        full: &[0x6000, 0x7000, 0x8000],
        left: &[0x6000, 0x7000, 0x8000],
        ..BOTH
    },
    Row {
        root: 0x2000,
        calls: &[(Small(MapTo(0x1000, 0xa000, 0x1)), Answered(Done(0xa000)))],
        words: &[
            (0x1000, 0, 0x3001),
            (0x3000, 0, 0x4001),
            (0x4000, 0, 0x5001),
            (0x5000, 1, 0x9001),
            (0x2000, 0, 0x6001),
            (0x6000, 0, 0x7001),
            (0x7000, 0, 0x8001),
            (0x8000, 1, 0xa001),
        ],
        ..BOTH
    },
    // The tables of the first hierarchy are returned.
    Row { calls: &[(Small(Unmap(0x1000)), Answered(Done(0x9000))), (CleanUp, Cleaned)], left: &[0x3000, 0x4000, 0x5000], ..BOTH },
    // The second hierarchy takes two of them.
    Row {
        root: 0x2000,
        calls: &[(Small(MapTo(0x4000_0000, 0xb000, 0x1)), Answered(Done(0xb000)))],
        words: &[
            (0x2000, 0, 0x6001),
            (0x6000, 0, 0x7001),
            (0x7000, 0, 0x8001),
            (0x8000, 1, 0xa001),
            (0x6000, 1, 0x3001),
            (0x3000, 0, 0x4001),
            (0x4000, 0, 0xb001),
        ],
        left: &[0x5000],
        ..BOTH
    },
];

/// Executes steps one after another in one memory, compares the results of each, and asserts that the pool fits both
/// hierarchies again.
fn check_steps(steps: &[Row<'_>]) {
    let mut state = State::new(&BOTH, By::Identity);
    for step in steps.iter().enumerate() {
        check(step, By::Identity, &mut state);
        for root in [0x1000, 0x2000] {
            assert!(fits::<FourLevels>(&state.memory, frame_at(root), &state.pool));
        }
    }
}

#[test]
fn hierarchies_take_tables_from_one_pool() {
    check_steps(&STEPS)
}
