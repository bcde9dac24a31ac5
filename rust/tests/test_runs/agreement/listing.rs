//! The mappings, listed by the library and by the plain definition: the leaves among the entries at their paths.
use crate::prelude::*;
use crate::test_reference::words::{flags, is_huge, is_present};
use crate::test_reference::PathEntries;
use x86_64_paging::listing::MappingIn;
use x86_64_paging::mappings_from;
use x86_64_paging::tables::page_table::Rights;

const WRITABLE: u64 = 0x2;
const USER_ACCESSIBLE: u64 = 0x4;
const NO_EXECUTE: u64 = 0x8000_0000_0000_0000;

/// Returns the mapping of the entry at a path, if it is a leaf.
fn mapping_at<L: LevelCount>(paths: &PathEntries, path: &[u64]) -> Option<MappingIn<L>> {
    let leaf = paths.entry(path);
    let frame = match L::LEVELS as usize - path.len() {
        0 => MappedFrame::Size4KiB(frame_at(address(leaf))),
        1 if is_huge(leaf) => MappedFrame::Size2MiB(frame_at(address(leaf))),
        2 if is_huge(leaf) => MappedFrame::Size1GiB(frame_at(address(leaf))),
        _ => return None,
    };
    // the bits that all words from the root down have, and those that any of them has
    let (mut number, mut all, mut any) = (0_u64, leaf, leaf);
    for (n, index) in path.iter().enumerate() {
        let word = paths.entry(&path[..=n]);
        if !is_present(word) || n + 1 < path.len() && is_huge(word) {
            return None;
        }
        number = number * 512 + index;
        all &= word;
        any |= word;
    }
    Some(MappingIn {
        start: VirtAddrIn::new_truncate(number * frame.size()),
        frame,
        flags: flags_of(flags(leaf)),
        rights: Rights { write: all & WRITABLE != 0, user: all & USER_ACCESSIBLE != 0, execute: any & NO_EXECUTE == 0 },
    })
}

/// Returns the first mapping from an address on.
fn first_from<L: LevelCount>(paths: &PathEntries, from: u64) -> Option<MappingIn<L>> {
    let found = paths.items.iter().filter_map(|item| mapping_at::<L>(paths, &item.path));
    found.filter(|mapping| from <= mapping.start.as_u64()).min_by_key(|mapping| mapping.start.as_u64())
}

/// Compares the library's list with the plain mappings, in order.
pub fn compare_mappings<L: LevelCount>(memory: &PhysMemory, paths: &PathEntries) {
    let zero = VirtAddrIn::<L>::zero();
    let mut from = 0;
    for mapping in mappings_from(memory, &IdentityMapping, frame_at(ROOT), zero) {
        assert_equal(mapping, unwrap_some(first_from(paths, from)));
        from = mapping.start.as_u64() + 1;
    }
    assert!(first_from::<L>(paths, from).is_none());
}
