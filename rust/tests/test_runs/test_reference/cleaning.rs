//! Clean up: which empty tables are freed, and in which order.
//!
//! Positions are the numbers of addresses counted without the gap in the middle of the address space.

use crate::more::MoreOfVec;
use x86_64_paging::support::Vec;

use crate::test_reference::entries::{PathEntries, PathEntry};
use crate::test_reference::positions::span_size;
use crate::test_reference::words::{address, is_huge, is_present};
use x86_64_paging::support::AllocError;

/// Returns the number with the digits so far followed by the indices of a path as digits in base 512, if it is below 2^64.
fn number(so_far: u64, path: &[u64]) -> Option<u64> {
    match path {
        [] => Some(so_far),
        [index, rest @ ..] => number(so_far.checked_mul(512)?.checked_add(*index)?, rest),
    }
}

/// Returns the first position of a path's span, if it is below 2^64.
fn span_start(levels: usize, path: &[u64]) -> Option<u64> {
    number(0, path)?.checked_mul(span_size(levels, path))
}

/// Returns true if a path is longer than another and begins with it.
fn is_below(above: &[u64], path: &[u64]) -> bool {
    match above {
        [] => !path.is_empty(),
        [first, above @ ..] => match path {
            [] => false,
            [index, path @ ..] => *first == *index && is_below(above, path),
        },
    }
}

/// Returns a path with one more index.
fn extended(path: &[u64], index: u64) -> Result<Vec<u64>, AllocError> {
    let mut below = Vec::from_slice(path)?;
    below.push(index)?;
    Ok(below)
}

/// The positions from low to high, in a hierarchy with a number of levels.
#[derive(Clone, Copy)]
pub struct CleanUpRange {
    pub levels: usize,
    pub low: u64,
    pub high: u64,
}

impl CleanUpRange {
    /// Returns true if a path's span overlaps the range.
    fn meets(self, path: &[u64]) -> bool {
        let Some(start) = span_start(self.levels, path) else {
            return false;
        };
        let is_met = self.low < start || self.low - start < span_size(self.levels, path);
        self.low <= self.high && start <= self.high && is_met
    }

    /// Returns true if a path has a present table entry whose span overlaps the range.
    fn has_table(self, paths: &PathEntries, path: &[u64]) -> bool {
        let word = paths.entry(path);
        path.len() < self.levels && is_present(word) && !is_huge(word) && self.meets(path)
    }

    /// Returns true if all parents of a path are present table entries whose spans overlap the range.
    fn has_parents(self, paths: &PathEntries, path: &[u64]) -> bool {
        for length in 1..path.len() {
            if !self.has_table(paths, &path[..length]) {
                return false;
            }
        }
        true
    }

    /// Returns true if each item below a path is a present table entry whose span overlaps the range.
    fn has_items(self, paths: &PathEntries, path: &[u64], items: &[PathEntry]) -> bool {
        items.iter().all(|item| !is_below(path, &item.path) | self.has_table(paths, &item.path))
    }

    /// Returns true if each used entry below a path is a present table entry whose span overlaps the range.
    fn has_all_below(self, paths: &PathEntries, path: &[u64]) -> bool {
        self.has_items(paths, path, &paths.items)
    }

    /// Returns true if the entry at a path, all its parents and every used entry below it are present table entries whose
    /// spans overlap the range.
    fn removes(self, paths: &PathEntries, path: &[u64]) -> bool {
        self.has_table(paths, path) && self.has_parents(paths, path) && self.has_all_below(paths, path)
    }

    /// Adds the frame of the table at a path, if the path is removed.
    fn add_frame(self, paths: &PathEntries, path: &[u64], back: &mut Vec<u64>) -> Result<(), AllocError> {
        if self.removes(paths, path) {
            back.push(address(paths.entry(path)))?;
        }
        Ok(())
    }

    /// Adds the frames of the removed tables below a path, of at most `depth` more indices. Nothing is removed below a path
    /// that isn't in the range.
    fn add_frames(self, paths: &PathEntries, depth: usize, path: &[u64], back: &mut Vec<u64>) -> Result<(), AllocError> {
        if depth == 0 {
            return Ok(());
        }
        for index in 0..512 {
            let below = extended(path, index)?;
            if self.has_table(paths, &below) {
                self.add_frames(paths, depth - 1, &below, back)?;
                self.add_frame(paths, &below, back)?;
            }
        }
        Ok(())
    }

    /// Adds an item to those that stay, if its path isn't removed.
    fn add_left(self, paths: &PathEntries, item: &PathEntry, left: &mut Vec<PathEntry>) -> Result<(), AllocError> {
        if !self.removes(paths, &item.path) {
            let path = Vec::from_slice(&item.path)?;
            let word = item.word;
            left.push(PathEntry { path, word })?;
        }
        Ok(())
    }

    /// Returns the entries at paths that aren't removed.
    fn left_entries(self, paths: &PathEntries) -> Result<PathEntries, AllocError> {
        let mut left = Vec::new();
        for item in &paths.items {
            self.add_left(paths, item, &mut left)?;
        }
        Ok(PathEntries { items: left })
    }

    /// Removes the entries at the removed paths, and returns the frames of their tables, each after those below it,
    /// otherwise in ascending order of indices.
    ///
    /// # Errors
    ///
    /// `AllocError` if memory allocation fails. The entries are then unspecified.
    pub fn clean_up(self, paths: &mut PathEntries) -> Result<Vec<u64>, AllocError> {
        let mut back = Vec::new();
        self.add_frames(paths, self.levels.saturating_sub(1), &[], &mut back)?;
        *paths = self.left_entries(paths)?;
        Ok(back)
    }
}
