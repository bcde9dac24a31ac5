//! A layer around a mapper, which has all of a mapper's calls. The owner of the memory below learns what they did.

use x86_64_paging::support::Vec;

use crate::prelude::*;
use crate::uses::layer::{run_counted, unmap_counted};

#[test]
fn layers_unmap_pages() {
    let root = frame(0x1000);
    let mut world = World::new(&WORDS[1..], (0, 0));
    world.assert_fits::<FourLevels>(root);
    let answer = unmap_counted::<Size4KiB>(&mut world.memory, root, page(0x1000));
    assert_equal(answer, (Ok(frame(0x5000)), 1));
    check_words(&world.memory, &WORDS[1..4])
}

/// Executes calls with a layer in a memory with the root in frame 0x1000, and returns the number of tables that were lent
/// to be changed.
fn run_in(world: &mut World, calls: &[Call]) -> u64 {
    let (root, mut replies) = (frame(0x1000), Vec::new());
    world.assert_fits::<FourLevels>(root);
    let (memory, pool) = (&mut world.memory, &mut world.pool);
    let count = unwrap(run_counted(memory, root, pool, calls, &mut replies));
    assert_equal(replies.len(), calls.len());
    count
}

/// Six of the loans are for the three tables that the map creates: for each, one to see whether the entry is unused, and
/// one to set it. The new table is cleared before, without being lent. The map, the change of flags and the unmap take
/// one each for the page's entry, the translation none, and the clean up one for each of the three entries that it makes
/// unused.
#[test]
fn layers_run_lists() {
    let mut world = World::new(&[], (2, 5));
    let (page, flags) = (page(0x1000), flags(3));
    let calls = [
        map(0x1000, 0x5000),
        Call::Translate(VirtAddr::new(0x1abc)),
        Call::Of4KiB(SizeCall::UpdateFlags { page, flags }),
        Call::Of4KiB(SizeCall::Unmap { page }),
        Call::CleanUp,
    ];
    assert_equal(run_in(&mut world, &calls), 12);
    world.check((2, 5), &[])
}
