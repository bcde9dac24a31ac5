//! The result of a load: a caller loads segments, drops the mapper, and lists all mappings below the root.

use x86_64_paging::support::Vec;

use crate::loader::{segment, READ, WRITE};
use crate::prelude::*;
use crate::uses::list_loaded::load_and_list;

/// The mappings after a load of code that a user reads and of data that a user writes.
const LINES: [&str; 4] = [
    "0x400000 4KiB 0x800000 r-xu 0x5",
    "0x401000 4KiB 0x801000 r-xu 0x5",
    "0x5ff000 4KiB 0x9ff000 rw-u 0x8000000000000007",
    "0x600000 4KiB 0xa00000 rw-u 0x8000000000000007",
];

/// Loads these segments, and lists all mappings.
fn load_both(world: &mut World) -> Vec<Mapping> {
    let root = frame(0x1000);
    world.assert_fits::<FourLevels>(root);
    let code = segment(0x40_0000, 0x80_0000, 2, READ);
    let segments = [code, segment(0x5f_f000, 0x9f_f000, 2, WRITE)];
    let (memory, pool) = (&mut world.memory, &mut world.pool);
    let listed = load_and_list(memory, root, pool, &segments);
    unwrap_some(unwrap(listed))
}

#[test]
fn loaded_segments_are_listed() {
    let mut world = World::new(&[], (2, PLACES));
    let listed = load_both(&mut world);
    assert_equal(listed.len(), LINES.len());
    for (mapping, line) in listed.iter().zip(LINES) {
        let text = unwrap(format_in!("{mapping}"));
        assert_equal(text.as_str(), line);
    }
}
