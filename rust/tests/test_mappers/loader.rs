//! Loads of small programs into empty hierarchies.

use crate::prelude::*;
use x86_64_paging::loader::{frames_needed, load, load_large, segments_allowed, LoadError, Segment};

/// The flags of pages that a user reads, and of those that a user reads and writes and doesn't execute.
pub const READ: u64 = 5;

pub const WRITE: u64 = 0x8000_0000_0000_0007;

/// Returns the segment with these addresses of its first page and frame.
pub fn segment(start: u64, to: u64, pages: u64, bits: u64) -> Segment {
    let (page, frame, flags) = (page(start), frame(to), flags(bits));
    Segment { page, frame, pages, flags }
}

/// Loads a program with pages of 4KiB, or with larger ones where they fit, and returns the number of frames that
/// suffices and what the load returns, or `None` if the program isn't allowed.
fn load_by(world: &mut World, is_large: bool, segments: &[Segment]) -> Option<(Option<u64>, Result<(), LoadError>)> {
    let root = frame(0x1000);
    world.assert_fits::<FourLevels>(root);
    let (memory, pool) = (&mut world.memory, &mut world.pool);
    let mut mapper = MappedPageTable::new(memory, root, IdentityMapping);
    if !segments_allowed(&mapper, segments) {
        return None;
    }
    let needed = frames_needed(segments);
    let loaded = if is_large { load_large(&mut mapper, pool, segments) } else { load(&mut mapper, pool, segments) };
    Some((needed, loaded))
}

/// Where a page walk arrives, and whether it may write and a user may use it.
type Arrival = Option<(u64, bool, bool)>;

/// Compares where page walks of addresses arrive.
fn check_walks(world: &World, walks: &[(u64, Arrival)]) {
    for (start, wanted) in walks {
        let address = VirtAddr::new_truncate(*start);
        let walked = page_walk(&world.memory, &IdentityMapping, frame(0x1000), address);
        let found = walked.map(|walked| (walked.address.as_u64(), walked.write, walked.user));
        assert_equal_in(*start, found, *wanted);
    }
}

/// Returns a program with 3 pages to read, 517 to write that cross two borders of 2MiB, and a page of the kernel.
fn program() -> [Segment; 3] {
    [
        segment(0x40_0000, 0x80_0000, 3, READ),
        segment(0x5f_e000, 0x9f_e000, 0x205, WRITE),
        segment(0xffff_8000_0000_0000, 0x5000, 1, 1),
    ]
}

/// Where page walks arrive after the load of the program.
const WALKS: [(u64, Arrival); 8] = [
    (0x3f_ffff, None),
    (0x40_0000, Some((0x80_0000, false, true))),
    (0x40_2fff, Some((0x80_2fff, false, true))),
    (0x40_3000, None),
    (0x5f_e123, Some((0x9f_e123, true, true))),
    (0x7f_fabc, Some((0xbf_fabc, true, true))),
    (0x80_2fff, Some((0xc0_2fff, true, true))),
    (0xffff_8000_0000_0fff, Some((0x5fff, false, false))),
];

/// Of 14 frames the tables take eight, one of them for pages of 4KiB that a page of 2MiB could replace.
#[test]
fn programs_are_loaded_by_pages_of_2mib_where_they_fit() {
    for (is_large, left) in [(false, 6), (true, 7)] {
        let mut world = World::new(&[], (2, PLACES));
        let loaded = load_by(&mut world, is_large, &program());
        assert_equal(loaded, Some((Some(11), Ok(()))));
        check_walks(&world, &WALKS);
        assert_equal(world.pool.len(), left);
    }
}

/// Where page walks arrive after the load of overlapping segments.
const OVERLAP: [(u64, Arrival); 2] = [(0x40_0000, Some((0x80_0000, false, true))), (0x3f_ffff, Some((0x9f_ffff, true, true)))];

/// Loads two overlapping segments, and compares where the load stops and where page walks arrive.
fn check_overlap(is_large: bool) {
    let segments = [segment(0x40_0000, 0x80_0000, 4, READ), segment(0x3f_e000, 0x9f_e000, 3, WRITE)];
    let mut world = World::new(&[], (2, PLACES));
    let loaded = load_by(&mut world, is_large, &segments);
    let wanted = LoadError { segment: 1, page: page(0x40_0000), mapped: 2, why: MapToError::PageAlreadyMapped(frame(0xa0_0000)) };
    assert_equal(loaded.map(|loaded| loaded.1), Some(Err(wanted)));
    check_walks(&world, &OVERLAP);
}

#[test]
fn segments_that_overlap_are_refused() {
    check_overlap(false);
    check_overlap(true);
}

/// Asserts that a segment isn't allowed.
fn check_refused(segment: Segment) {
    let mut world = World::new(&[], (2, PLACES));
    let loaded = load_by(&mut world, false, &[segment]);
    assert_equal(loaded, None);
}

#[test]
fn segments_are_allowed_as_their_pages_are() {
    let (page, frame) = (0x40_0000, 0x80_0000);
    check_refused(segment(page, frame, 1, 2));
    check_refused(segment(page, frame, 1, READ | 0x80));
    let last = 0xffff_ffff_ffff_f000;
    check_refused(segment(last, frame, 2, READ));
    let last = 0xf_ffff_ffff_f000;
    check_refused(segment(page, last, 2, READ));
}
