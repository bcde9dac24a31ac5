//! Translation of positions: the numbers of addresses counted without the gap in the middle of the address space.

use crate::more::MoreOfVec;
use x86_64_paging::support::Vec;

use crate::test_reference::entries::PathEntries;
use crate::test_reference::plain_calls::Translated;
use crate::test_reference::positions::{index, span};
use crate::test_reference::windows::{entry_at, PlainWindow};
use crate::test_reference::words::{address, flags, is_huge, is_present, is_used};
use x86_64_paging::support::AllocError;

/// Returns a huge entry's address, rounded down to the page size of its level.
fn page_start(level: usize, word: u64) -> u64 {
    address(word) / span(level) * span(level)
}

/// Returns the translation of a position by an entry of a level that maps it.
fn mapped(level: usize, position: u64, frame: u64, flags: u64) -> Translated {
    let size = span(level);
    let offset = position % size;
    Translated::Mapped { size, frame, offset, flags }
}

/// Extends a path by the index of a level at a position, and returns the entry there.
fn next_entry(
    window: Option<PlainWindow>,
    paths: &PathEntries,
    position: u64,
    level: usize,
    path: &mut Vec<u64>,
) -> Result<u64, AllocError> {
    path.push(index(level, position))?;
    Ok(entry_at(window, paths, path))
}

/// Returns the translation of a position from a level down, given the path that leads to that level's table.
fn translate_on(
    window: Option<PlainWindow>,
    paths: &PathEntries,
    position: u64,
    level: usize,
    path: &mut Vec<u64>,
) -> Result<Translated, AllocError> {
    if level == 0 {
        return Ok(Translated::NotMapped);
    }
    let word = next_entry(window, paths, position, level, path)?;
    if level == 1 {
        if is_used(word) {
            return Ok(mapped(1, position, address(word), flags(word)));
        }
        return Ok(Translated::NotMapped);
    }
    if !is_present(word) {
        return Ok(Translated::NotMapped);
    }
    if level <= 3 && is_huge(word) {
        return Ok(mapped(level, position, page_start(level, word), flags(word)));
    }
    translate_on(window, paths, position, level - 1, path)
}

/// Returns the translation of a position.
pub fn translate(levels: usize, window: Option<PlainWindow>, paths: &PathEntries, position: u64) -> Result<Translated, AllocError> {
    let mut path = Vec::new();
    translate_on(window, paths, position, levels, &mut path)
}
