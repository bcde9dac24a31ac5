//! The recursive index, at which the root's entry names the root itself, and the entries that are read through it.

use crate::test_reference::entries::PathEntries;
use crate::test_reference::plain_calls::Refusal;
use crate::test_reference::words::{is_huge, is_present};

/// A recursive index, and the root's entry at this index.
#[derive(Clone, Copy, Debug, PartialEq, Eq)]
pub struct PlainWindow {
    pub index: u64,
    pub self_entry: u64,
}

/// Returns true if a path lies in the recursive window: it begins with the recursive index.
pub fn begins_with(window: Option<PlainWindow>, path: &[u64]) -> bool {
    match (window, path) {
        (Some(window), [index, ..]) => *index == window.index,
        _ => false,
    }
}

/// Returns the entry read at a path through a window.
fn windowed(window: PlainWindow, paths: &PathEntries, path: &[u64]) -> u64 {
    match path {
        [] => 0,
        [index] if *index == window.index => window.self_entry,
        [index, rest @ ..] if *index == window.index => windowed(window, paths, rest),
        _ => paths.entry(path),
    }
}

/// Returns the entry read at a path, through the window if there is one.
pub fn entry_at(window: Option<PlainWindow>, paths: &PathEntries, path: &[u64]) -> u64 {
    match window {
        None => paths.entry(path),
        Some(window) => windowed(window, paths, path),
    }
}

/// Returns the refusal by the shortest parent of a path that isn't a present table entry.
pub fn first_stop(window: Option<PlainWindow>, paths: &PathEntries, path: &[u64]) -> Option<Refusal> {
    for length in 1..path.len() {
        let word = entry_at(window, paths, &path[..length]);
        if !is_present(word) {
            return Some(Refusal::PageNotMapped);
        }
        if is_huge(word) {
            return Some(Refusal::ParentEntryHugePage);
        }
    }
    None
}
