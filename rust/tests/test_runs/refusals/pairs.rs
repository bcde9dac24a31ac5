//! Lists of calls with two mappers at once, with four levels of page tables and with five.
use super::hoard_past;
use super::lists::{begin, begin_recursive, is_full, maps_of_a_page, used_entries, CALL_COUNT, INDEX};
use crate::pairs::{is_pair, none_names, run_pair_on};
use crate::prelude::*;

/// The first allocation of a pair: the replies of one mapper. Those of the other follow.
const REPLIES_OF_ONE: [usize; 1] = [CALL_COUNT * size_of::<Reply>()];

/// Asserts that a list is refused if only these blocks have room, and changes nothing, and that it is executed
/// afterwards, with each mapper using an entry of each level.
fn check_pair<L: LevelCount, P5: LevelFiveFlags<L>>(room: &[usize]) {
    let (root, index) = (frame_at(ROOT), PageTableIndex::new(INDEX));
    let ((mut memory, mut pool)) = (begin());
    let (mut walked, mut walked_pool) = begin_recursive();
    let (memory, pool) = (&mut memory, &mut pool);
    let (walked, walked_pool) = (&mut walked, &mut walked_pool);
    let list = maps_of_a_page::<L, P5>();
    assert!(is_pair::<L>(root, index, memory, pool, walked, walked_pool));
    assert!(none_names(&list, index));
    let hoard = hoard_past(room);
    let refused = run_pair_on(root, index, memory, pool, walked, walked_pool, &list);
    drop(hoard);
    assert!(refused.is_err() && is_full(pool) && is_full(walked_pool));
    assert_equal((used_entries(memory), used_entries(walked)), (0, 1));
    let answer = run_pair_on(root, index, memory, pool, walked, walked_pool, &list);
    assert_equal(unwrap(answer).len(), CALL_COUNT);
    assert_equal(used_entries(memory), L::LEVELS);
    assert_equal(used_entries(walked), L::LEVELS.saturating_add(1));
}

#[test]
fn lists_of_pairs_change_nothing_where_there_is_no_room() {
    for room in [&[][..], &REPLIES_OF_ONE] {
        check_pair::<FourLevels, NoLevelFive>(room);
        check_pair::<FiveLevels, PageTableFlags>(room);
    }
}
