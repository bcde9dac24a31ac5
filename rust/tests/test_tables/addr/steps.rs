//! Steps along addresses and indices, from the tests of the Rust crate and beyond.
use crate::addr::{FIRST_HIGH, FIRST_HIGH_57, LAST_LOW, LAST_LOW_57};
use crate::prelude::*;

/// The raw value of a start, a number of steps, and the raw value of the end that they lead to. Without a start, that
/// many steps back from the end lead nowhere, and without an end, that many from the start.
pub(crate) type Steps = (Option<u64>, usize, Option<u64>);

const STEPS: [Steps; 18] = [
    (Some(0), 0, Some(0)),
    (Some(0), 1, Some(1)),
    (Some(0), 1 << 32, Some(1 << 32)),
    (Some(LAST_LOW), 1, Some(FIRST_HIGH)),
    (Some(FIRST_HIGH), 0, Some(FIRST_HIGH)),
    (Some(FIRST_HIGH), 1, Some(FIRST_HIGH + 1)),
    (Some(LAST_LOW), 1 << 47, Some(u64::MAX)),
    (Some(0x7fff_ffff_ff00), 0x8000_0000_00ff, Some(u64::MAX)),
    (Some(LAST_LOW), 0x1234_5678_9abd, Some(0xffff_9234_5678_9abc)),
    (Some(0), 1 << 47, Some(FIRST_HIGH)),
    (Some(0xff), 0x7fff_ffff_ff01, Some(FIRST_HIGH)),
    (Some(u64::MAX), 1, None),
    (Some(0x7fff_ffff_ff00), 0x8000_0000_0100, None),
    (Some(LAST_LOW), (1 << 47) + 1, None),
    (Some(1), usize::MAX, None),
    (None, 1, Some(0)),
    (None, (1 << 47) + 1, Some(FIRST_HIGH)),
    (None, usize::MAX, Some(u64::MAX)),
];

const STEPS_57: [Steps; 4] = [
    (Some(LAST_LOW_57), 1, Some(FIRST_HIGH_57)),
    (Some(LAST_LOW_57), 1 << 56, Some(u64::MAX)),
    (Some(LAST_LOW_57), (1 << 56) + 1, None),
    (None, 1 << 56, Some(LAST_LOW_57)),
];

/// Addresses and pages, which are reached by steps.
pub(crate) trait Stepped: Copy + Debug + PartialEq {
    /// Returns the value at a raw address.
    fn at(raw: u64) -> Self;

    fn forward(self, count: usize) -> Option<Self>;

    fn backward(self, count: usize) -> Option<Self>;

    fn steps_to(self, other: Self) -> (usize, Option<usize>);
}

impl<L: LevelCount> Stepped for VirtAddrIn<L> {
    fn at(raw: u64) -> Self {
        VirtAddrIn::new_truncate(raw)
    }

    fn forward(self, count: usize) -> Option<Self> {
        VirtAddrIn::forward_checked(self, count)
    }

    fn backward(self, count: usize) -> Option<Self> {
        VirtAddrIn::backward_checked(self, count)
    }

    fn steps_to(self, other: Self) -> (usize, Option<usize>) {
        VirtAddrIn::steps_between(&self, &other)
    }
}

/// Returns the value at a raw address, if there is one.
fn at<T: Stepped>(raw: Option<u64>) -> Option<T> {
    Some(T::at(raw?))
}

/// Compares what is a number of steps after each start and before each end, and the numbers of steps between both, and
/// back.
pub(crate) fn check_steps<T: Stepped>(rows: &[Steps]) {
    for (start, count, end) in rows {
        if let Some(start) = at::<T>(*start) {
            assert_equal_in((start, *count), start.forward(*count), at(*end));
        }
        if let Some(end) = at::<T>(*end) {
            assert_equal_in((end, *count), end.backward(*count), at(*start));
        }
        if let (Some(start), Some(end)) = (at::<T>(*start), at::<T>(*end)) {
            let found = (start.steps_to(end), end.steps_to(start));
            let back = if *count == 0 { Some(0) } else { None };
            let wanted = ((*count, Some(*count)), (0, back));
            assert_equal_in((start, end), found, wanted);
        }
    }
}

/// The rows of `virtaddr_step_forward`, `virtaddr_step_backward` and `virtaddr_steps_between` of the Rust crate, and
/// more.
#[test]
fn addresses_step() {
    check_steps::<VirtAddr>(&STEPS);
    check_steps::<VirtAddr57>(&STEPS_57);
}

/// Indices, numbers of steps, and the indices that they lead to forward and backward, if any.
const INDICES: [(u16, usize, Option<u16>, Option<u16>); 5] = [
    (3, 508, Some(511), None),
    (511, 1, None, Some(510)),
    (0, usize::MAX, None, None),
    (511, 508, None, Some(3)),
    (0, 1, Some(1), None),
];

#[test]
fn indices_step() {
    for (start, count, forward, backward) in INDICES {
        let start = PageTableIndex::new_truncate(start);
        let found = (PageTableIndex::forward_checked(start, count), PageTableIndex::backward_checked(start, count));
        let wanted = (forward.map(PageTableIndex::new_truncate), backward.map(PageTableIndex::new_truncate));
        assert_equal_in((start, count), found, wanted);
    }
    let (low, high) = (PageTableIndex::new(1), PageTableIndex::new(3));
    let there = PageTableIndex::steps_between(&low, &high);
    let back = PageTableIndex::steps_between(&high, &low);
    assert_equal_in((low, high), (there, back), ((2, Some(2)), (0, None)));
}
