//! Which calls are allowed.

use crate::test_reference::entries::PathEntries;
use crate::test_reference::machine::PlainMachine;
use crate::test_reference::plain_calls::{PlainCall, PlainPage};
use crate::test_reference::positions::{front_at, is_small, level_of, lower_half};
use crate::test_reference::windows::{begins_with, entry_at, first_stop};
use crate::test_reference::words::{is_huge, is_present, is_used, no_address, parent_part};
use x86_64_paging::support::AllocError;

/// Returns true if the first parent that is absent or huge is present, or if there is none.
fn none_absent(paths: &PathEntries, path: &[u64]) -> bool {
    for length in 1..path.len() {
        let word = paths.entry(&path[..length]);
        if !is_present(word) {
            return false;
        }
        if is_huge(word) {
            return true;
        }
    }
    true
}

/// Returns true if the parents of a path will be present.
fn parents_present(paths: &PathEntries, parent_flags: u64, path: &[u64]) -> bool {
    is_present(parent_flags) | none_absent(paths, path)
}

/// Returns true if both hold or neither does.
fn both_or_none(first: bool, second: bool) -> bool {
    if first {
        second
    } else {
        !second
    }
}

impl PlainMachine {
    /// Returns true if a map of a page is allowed.
    fn map_allowed(&self, paths: &PathEntries, page: &[u64], flags: u64, parent_flags: u64) -> bool {
        no_address(flags)
            & no_address(parent_flags)
            & !is_huge(parent_flags)
            & (!is_small(self.levels, page) | !is_huge(flags))
            & parents_present(paths, parent_flags, page)
            & !begins_with(self.window, page)
    }

    /// Returns true if a map of a page is allowed with the parent flags from its own flags.
    fn map_to_allowed(&self, paths: &PathEntries, page: &[u64], flags: u64) -> bool {
        self.map_allowed(paths, page, flags, parent_part(flags))
    }

    /// Returns true if `set_flags` is refused, whatever the flags.
    fn set_flags_refuses(&self, paths: &PathEntries, level: usize, page: &[u64]) -> bool {
        let path = front_at(self.levels, level, page);
        (level <= level_of(self.levels, page))
            | first_stop(self.window, paths, path).is_some()
            | !is_used(entry_at(self.window, paths, path))
    }

    /// Returns true if the flags are allowed for the entry of a level on a page's path.
    fn set_flags_allowed(&self, paths: &PathEntries, level: usize, page: &[u64], flags: u64) -> bool {
        if level > 3 {
            return !is_huge(flags);
        }
        let word = entry_at(self.window, paths, front_at(self.levels, level, page));
        self.set_flags_refuses(paths, level, page) | both_or_none(is_huge(flags), is_huge(word))
    }

    /// Returns true if setting the flags of the entry of a level on a page's path is allowed.
    fn is_set_flags_allowed(&self, paths: &PathEntries, level: usize, page: &[u64], flags: u64) -> bool {
        no_address(flags) & !begins_with(self.window, page) & self.set_flags_allowed(paths, level, page, flags)
    }

    /// Returns true if a call is allowed.
    pub fn is_allowed(&self, paths: &PathEntries, call: &PlainCall) -> Result<bool, AllocError> {
        let levels = self.levels;
        match *call {
            PlainCall::MapTo { page, flags, .. } => {
                let path = page.path(levels)?;
                Ok(self.map_to_allowed(paths, &path, flags))
            }
            PlainCall::MapToWithTableFlags { page, flags, parent_flags, .. } => {
                let path = page.path(levels)?;
                Ok(self.map_allowed(paths, &path, flags, parent_flags))
            }
            PlainCall::IdentityMap { level, frame, flags } => {
                let position = frame;
                let path = PlainPage { level, position }.path(levels)?;
                Ok((frame < lower_half(levels)) & self.map_to_allowed(paths, &path, flags))
            }
            PlainCall::Unmap { page } => {
                let path = page.path(levels)?;
                Ok(!begins_with(self.window, &path))
            }
            PlainCall::UpdateFlags { page, flags } => {
                let path = page.path(levels)?;
                Ok(no_address(flags) & !begins_with(self.window, &path))
            }
            PlainCall::SetFlags { level, page, flags } => {
                let path = page.path(levels)?;
                Ok(self.is_set_flags_allowed(paths, level, &path, flags))
            }
            PlainCall::TranslatePage { .. }
            | PlainCall::Translate { .. }
            | PlainCall::TranslateAddress { .. }
            | PlainCall::CleanUp { .. } => Ok(true),
        }
    }
}
