//! Tests of frame mappings by segments.

use crate::common::*;
use crate::more::MoreOfVec;
use x86_64_paging::support::Vec;
use x86_64_paging::tables::phys_memory::page_walk;

/// Creates segments, each of its first frame's number, the number of frames, and the first frame's place.
fn segments_of(rows: &[[u64; 3]]) -> Vec<FrameSegment> {
    let mut segments = Vec::new();
    for [first, count, place] in rows {
        let segment = FrameSegment { first: *first, count: *count, place: *place };
        unwrap(segments.push(segment));
    }
    segments
}

/// Frames 0x10 and 0x11 and, after a hole, 0x20 to 0x22, whose tables come first; then frame 0x23.
const SEGMENTS: [[u64; 3]; 3] = [[0x10, 2, 3], [0x20, 3, 0], [0x23, 1, 5]];

/// Numbers of frames, and the places that they have by these segments.
const PLACES: [(u64, Option<u64>); 11] = [
    (0, None),
    (0xf, None),
    (0x10, Some(3)),
    (0x11, Some(4)),
    (0x12, None),
    (0x1f, None),
    (0x20, Some(0)),
    (0x22, Some(2)),
    (0x23, Some(5)),
    (0x24, None),
    (0xff_ffff_ffff, None),
];

/// Returns the place of the frame with a number, if it is covered.
fn place_of(mapping: &SegmentMapping<'_>, number: u64) -> Option<u64> {
    let frame = PhysFrame::containing_address(PhysAddr::new_truncate(number.wrapping_mul(4096)));
    if mapping.covers(frame) {
        Some(mapping.frame_to_pointer(frame).number())
    } else {
        None
    }
}

#[test]
fn frames_lie_in_segments() {
    let segments = segments_of(&SEGMENTS);
    let mapping = unwrap(SegmentMapping::new(&segments));
    for (number, wanted) in PLACES {
        assert_equal_in(number, place_of(&mapping, number), wanted);
    }
    let none = unwrap(SegmentMapping::new(&[]));
    assert_equal(place_of(&none, 0), None);
}

/// Segments, and the index of the first that is wrong.
static TESTED: [(&[[u64; 3]], Option<usize>); 12] = [
    (&[], None),
    (&[[0, u64::MAX, 0]], None),
    (&[[1, u64::MAX, 0]], Some(0)),
    (&[[0, u64::MAX, 1]], Some(0)),
    (&[[0, 2, 0], [2, 1, 2]], None),
    (&[[0, 2, 0], [1, 1, 2]], Some(1)),
    (&[[0, 2, 0], [2, 1, 1]], Some(1)),
    (&[[2, 1, 0], [0, 2, 1]], Some(1)),
    (&[[0, 2, 1], [2, 1, 0]], None),
    (&[[0, 2, 1], [2, 2, 0]], Some(1)),
    (&[[0, 1, 0], [1, 1, 1], [2, 1, 0]], Some(2)),
    (&[[0, 0, 0], [0, 1, 0], [1, 0, 9]], None),
];

#[test]
fn segments_are_in_order() {
    for (rows, wanted) in &TESTED {
        let segments = segments_of(rows);
        let found = match SegmentMapping::new(&segments) {
            Ok(_) => None,
            Err(refusal) => Some(refusal.segment),
        };
        assert_equal_in(*rows, found, *wanted);
    }
}

/// The words of a hierarchy with its root in frame 0x11, given with the places of their tables, times 0x1000.
const WORDS: [[u64; 3]; 4] = [[0x4000, 0, 0x2_0003], [0x0, 0, 0x2_3003], [0x5000, 0, 0x1_0003], [0x3000, 1, 0x1_f003]];

#[test]
fn a_hierarchy_lies_around_a_hole() {
    let mut memory = memory_of(6, &[]);
    for word in WORDS {
        set_words(&mut memory, &word);
    }
    let segments = segments_of(&SEGMENTS);
    let (mapping, root) = (unwrap(SegmentMapping::new(&segments)), frame_at(0x1_1000));
    let address = VirtAddr::new_truncate(0x1abc);
    let walked = unwrap_some(page_walk(&memory, &mapping, root, address));
    assert_equal(walked.address.as_u64(), 0x1_fabc);
    set_words(&mut memory, &[0x5000, 0, 0x1_2003]);
    assert!(page_walk(&memory, &mapping, root, address).is_none());
}
