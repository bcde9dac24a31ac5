//! Path maps as lists of paths and entries.

use crate::more::MoreOfVec;
use x86_64_paging::support::Vec;

use x86_64_paging::support::AllocError;

/// A path and the entry at it.
pub struct PathEntry {
    /// The path.
    pub path: Vec<u64>,
    /// The entry's word.
    pub word: u64,
}

/// The entries by path, seen as a path map. If a path occurs twice, its first entry counts.
pub struct PathEntries {
    /// The paths and entries.
    pub items: Vec<PathEntry>,
}

impl PathEntries {
    /// Creates a path map without entries.
    pub fn new() -> Self {
        Self { items: Vec::new() }
    }

    /// Returns the entry at a path, or 0 if there is none.
    pub fn entry(&self, path: &[u64]) -> u64 {
        word_at(&self.items, path).unwrap_or(0)
    }

    /// Sets the entry at a path. A used entry is stored, an absent one is removed.
    ///
    /// # Errors
    ///
    /// `AllocError` if memory allocation fails. The entries are then unspecified.
    pub fn put(&mut self, path: &[u64], word: u64) -> Result<(), AllocError> {
        leave_out(&mut self.items, path);
        if word != 0 {
            let path = Vec::from_slice(path)?;
            self.items.push(PathEntry { path, word })?;
        }
        Ok(())
    }
}

/// Returns the first word stored for a path.
fn word_at(items: &[PathEntry], path: &[u64]) -> Option<u64> {
    items.iter().find(|item| item.path.as_slice() == path).map(|item| item.word)
}

/// Removes all items at a path.
fn leave_out(items: &mut Vec<PathEntry>, path: &[u64]) {
    items.retain(|item| item.path.as_slice() != path);
}
