//! The machine's step.

use crate::more::MoreOfVec;
use x86_64_paging::support::Vec;

use crate::test_reference::cleaning::CleanUpRange;
use crate::test_reference::entries::PathEntries;
use crate::test_reference::plain_calls::{PlainCall, PlainPage, PlainReply, Translated};
use crate::test_reference::translations::translate;
use crate::test_reference::windows::PlainWindow;
use crate::test_reference::words::parent_part;
use x86_64_paging::support::AllocError;

/// The parameters that no call changes: the number of levels, the recursive index if there is one, and the flags that a new table
/// entry gets in addition to the parent flags.
///
/// A returned frame is put in front of the pool.
#[derive(Clone, Copy, Debug, PartialEq, Eq)]
pub struct PlainMachine {
    pub levels: usize,
    pub window: Option<PlainWindow>,
    pub added_flags: u64,
}

/// The entries by path, and the pool of free frames.
pub struct PlainState {
    pub paths: PathEntries,
    pub pool: Vec<u64>,
}

/// Returns the physical address of a translated position: the frame's start plus the offset. A position is the number of an
/// address counted without the gap in the middle of the address space.
fn address_of(translated: Translated) -> Option<u64> {
    match translated {
        Translated::NotMapped => None,
        Translated::Mapped { frame, offset, .. } => Some(frame + offset),
    }
}

/// Puts frames in front of a pool, one after another.
fn give_back(pool: &mut Vec<u64>, frames: &[u64]) -> Result<(), AllocError> {
    match frames {
        [] => Ok(()),
        [frame, others @ ..] => {
            pool.insert(0, *frame)?;
            give_back(pool, others)
        }
    }
}

impl PlainMachine {
    /// Translates a position.
    fn translate(&self, paths: &PathEntries, position: u64) -> Result<Translated, AllocError> {
        translate(self.levels, self.window, paths, position)
    }

    /// Maps a page.
    fn map(
        &self,
        state: &mut PlainState,
        page: PlainPage,
        frame: u64,
        flags: u64,
        parent_flags: u64,
    ) -> Result<PlainReply, AllocError> {
        let path = page.path(self.levels)?;
        let (paths, pool) = (&mut state.paths, &mut state.pool);
        let answer = self.map_call(paths, pool, &path, frame, flags, parent_flags)?;
        Ok(PlainReply::Answered(answer))
    }

    /// Frees the empty tables of the positions from low to high.
    fn clean_up(&self, state: &mut PlainState, low: u64, high: u64) -> Result<PlainReply, AllocError> {
        let levels = self.levels;
        let back = CleanUpRange { levels, low, high }.clean_up(&mut state.paths)?;
        give_back(&mut state.pool, &back)?;
        Ok(PlainReply::Cleaned)
    }

    /// Carries out an allowed call.
    fn do_call(&self, state: &mut PlainState, call: &PlainCall) -> Result<PlainReply, AllocError> {
        let levels = self.levels;
        match *call {
            PlainCall::MapTo { page, frame, flags } => self.map(state, page, frame, flags, parent_part(flags)),
            PlainCall::MapToWithTableFlags { page, frame, flags, parent_flags } => {
                self.map(state, page, frame, flags, parent_flags)
            }
            PlainCall::IdentityMap { level, frame, flags } => {
                let position = frame;
                self.map(state, PlainPage { level, position }, frame, flags, parent_part(flags))
            }
            PlainCall::Unmap { page } => {
                let path = page.path(levels)?;
                Ok(PlainReply::Answered(self.unmap(&mut state.paths, &path)?))
            }
            PlainCall::UpdateFlags { page, flags } => {
                let path = page.path(levels)?;
                Ok(PlainReply::Answered(self.update_flags(&mut state.paths, &path, flags)?))
            }
            PlainCall::SetFlags { level, page, flags } => {
                let path = page.path(levels)?;
                Ok(PlainReply::Answered(self.set_flags(&mut state.paths, level, &path, flags)?))
            }
            PlainCall::TranslatePage { page } => {
                let path = page.path(levels)?;
                Ok(PlainReply::Answered(self.translate_page(&state.paths, &path)))
            }
            PlainCall::Translate { position } => Ok(PlainReply::Position(self.translate(&state.paths, position)?)),
            PlainCall::TranslateAddress { position } => {
                let translated = self.translate(&state.paths, position)?;
                Ok(PlainReply::Address(address_of(translated)))
            }
            PlainCall::CleanUp { low, high } => self.clean_up(state, low, high),
        }
    }

    /// Carries out one call. A call that isn't allowed gets the reply `NotAllowed` and changes nothing.
    ///
    /// # Errors
    ///
    /// `AllocError` if memory allocation fails. The state is then unspecified.
    pub fn step(&self, state: &mut PlainState, call: &PlainCall) -> Result<PlainReply, AllocError> {
        if self.is_allowed(&state.paths, call)? {
            self.do_call(state, call)
        } else {
            Ok(PlainReply::NotAllowed)
        }
    }
}
