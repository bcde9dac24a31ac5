//! Two hierarchies in one memory, with one pool, which share no tables. Calls on one leave the other as it was. The
//! memory may be of any kind, such as a slice of tables that its owner lends.

use crate::more::MoreOfVec;
use x86_64_paging::support::Vec;

use crate::prelude::*;
use crate::uses::run_in_turn::run_in_turn;

/// Creates a pool that fits two empty roots in a memory of empty tables.
fn pool_of_two<T: TableMemory>(memory: &T, roots: (Frame, Frame)) -> FramePool {
    let pool = pool_of(3, PLACES);
    let (one, two) = roots;
    assert!(one != two);
    assert!(unwrap(pool_fits(memory, &IdentityMapping, one, &pool)));
    assert!(unwrap(pool_fits(memory, &IdentityMapping, two, &pool)));
    pool
}

/// Creates as many empty tables as there are places.
pub fn empty_tables() -> Vec<PageTable> {
    let mut tables = unwrap(Vec::with_capacity(PLACES as usize));
    for _ in 0..PLACES {
        tables.push_reserved(PageTable::new());
    }
    tables
}

/// Maps a page in each of two hierarchies.
fn map_in_both<T: TableMemory>(memory: &mut T, roots: (Frame, Frame), pool: &mut FramePool, given: (u64, u64)) {
    let (mut replies, (page, to)) = (Vec::new(), given);
    let (calls, others) = ([map(page, to)], [map(page, to | 0x1000)]);
    let both = (&calls[..], &others[..]);
    let served = run_in_turn(memory, roots, pool, both, &mut replies);
    unwrap(served);
}

/// Maps two pages in each of two hierarchies in a memory of empty tables, and compares where page walks arrive.
fn map_pages_in_both<T: TableMemory>(memory: &mut T) {
    let (one, two) = (frame(0x1000), frame(0x2000));
    let mut pool = pool_of_two(memory, (one, two));
    let call = (0x1000, 0x2_0000);
    map_in_both(memory, (one, two), &mut pool, call);
    let call = (0x8000_0000, 0x3_0000);
    map_in_both(memory, (one, two), &mut pool, call);
    assert_equal(pool.len(), 3);
    for (page, to) in [(0x1000, 0x2_0000), (0x8000_0000, 0x3_0000)] {
        assert_equal(walk::<FourLevels, _>(memory, one, page), Some(to));
        let found = walk::<FourLevels, _>(memory, two, page);
        assert_equal(found, Some(to | 0x1000));
    }
}

/// Maps these pages in a slice of empty tables.
fn map_pages_in_slice(tables: &mut [PageTable]) {
    let mut memory = LentMemory::new(tables);
    map_pages_in_both(&mut memory);
}

#[test]
fn two_hierarchies_share_a_memory_and_a_pool() {
    let mut memory = unwrap(PhysMemory::new(PLACES));
    map_pages_in_both(&mut memory);
}

#[test]
fn two_hierarchies_share_a_lent_memory() {
    let mut tables = empty_tables();
    map_pages_in_slice(&mut tables);
    for (root, below) in [(1, 0x3000), (2, 0x6000)] {
        let table = unwrap_some(tables.get(root));
        let named = table[PageTableIndex::new_truncate(0)].frame();
        assert_equal_in(root, named, Ok(frame(below)));
    }
}
