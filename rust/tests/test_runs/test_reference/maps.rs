//! The calls that map a page.

use crate::more::MoreOfVec;
use x86_64_paging::support::Vec;

use crate::test_reference::changes::leaf_entry;
use crate::test_reference::entries::PathEntries;
use crate::test_reference::machine::PlainMachine;
use crate::test_reference::plain_calls::{Answer, Refusal};
use crate::test_reference::positions::front;
use crate::test_reference::words::{is_used, is_used_and_huge};
use x86_64_paging::support::AllocError;

/// Returns the lengths of the parents of a path whose entry is used, or of those whose entry is unused.
fn parents_where(paths: &PathEntries, path: &[u64], used: bool) -> Result<Vec<usize>, AllocError> {
    let mut lengths = Vec::new();
    for length in 1..path.len() {
        if is_used(paths.entry(&path[..length])) == used {
            lengths.push(length)?;
        }
    }
    Ok(lengths)
}

/// Returns true if a parent of a path is used and huge.
fn has_huge_parent(paths: &PathEntries, path: &[u64]) -> bool {
    for length in 1..path.len() {
        if is_used_and_huge(paths.entry(&path[..length])) {
            return true;
        }
    }
    false
}

/// Adds flags to the entries at the front parts of a path of these lengths.
fn add_flags(paths: &mut PathEntries, flags: u64, path: &[u64], lengths: &[usize]) -> Result<(), AllocError> {
    match lengths {
        [] => Ok(()),
        [length, others @ ..] => {
            let parent = front(path, *length);
            let word = paths.entry(parent);
            paths.put(parent, word | flags)?;
            add_flags(paths, flags, path, others)
        }
    }
}

/// Creates tables at the front parts of a path of these lengths, in the given frames in order, as far as they go.
fn make_tables(paths: &mut PathEntries, flags: u64, path: &[u64], lengths: &[usize], frames: &[u64]) -> Result<(), AllocError> {
    match lengths {
        [] => Ok(()),
        [length, other_lengths @ ..] => match frames {
            [] => Ok(()),
            [frame, other_frames @ ..] => {
                paths.put(front(path, *length), frame | flags)?;
                make_tables(paths, flags, path, other_lengths, other_frames)
            }
        },
    }
}

/// Removes the first `count` frames from a pool, or all if there are fewer.
fn take_frames(pool: &mut Vec<u64>, count: usize) {
    let _ = pool.drain(..count.min(pool.len()));
}

impl PlainMachine {
    /// Maps a page to a frame, with these flags for the page's parents, and the added flags for new ones.
    ///
    /// # Errors
    ///
    /// `AllocError` if memory allocation fails. The entries and the pool are then unspecified.
    pub fn map_call(
        &self,
        paths: &mut PathEntries,
        pool: &mut Vec<u64>,
        page: &[u64],
        frame: u64,
        flags: u64,
        parent_flags: u64,
    ) -> Result<Answer, AllocError> {
        let used = parents_where(paths, page, true)?;
        let missing = parents_where(paths, page, false)?;
        let is_stopped = has_huge_parent(paths, page);
        let is_mapped = is_used(paths.entry(page));
        add_flags(paths, parent_flags, page, &used)?;
        if is_stopped {
            return Ok(Answer::Refused(Refusal::ParentEntryHugePage));
        }
        make_tables(paths, parent_flags | self.added_flags, page, &missing, pool)?;
        let is_short = pool.len() < missing.len();
        take_frames(pool, missing.len());
        if is_short {
            return Ok(Answer::Refused(Refusal::FrameAllocationFailed));
        }
        if is_mapped {
            return Ok(Answer::Refused(Refusal::PageAlreadyMapped(frame)));
        }
        paths.put(page, leaf_entry(self.levels, page, frame, flags))?;
        Ok(Answer::Done(frame))
    }
}
