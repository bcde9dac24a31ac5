//! Calls, replies and refusals.

use crate::more::MoreOfVec;
use x86_64_paging::support::Vec;

use crate::test_reference::positions::page_path;
use x86_64_paging::support::AllocError;

/// The reason why a call on a page is refused.
#[derive(Clone, Copy, Debug, PartialEq, Eq)]
pub enum Refusal {
    /// The page isn't mapped.
    PageNotMapped,
    /// A parent of the page's entry has HUGE_PAGE.
    ParentEntryHugePage,
    /// The page's entry names this address, which isn't that of a frame of the page's size.
    InvalidFrameAddress(u64),
    /// The page is mapped already, so it isn't mapped to this frame.
    PageAlreadyMapped(u64),
    /// There is no free frame for a table.
    FrameAllocationFailed,
}

/// The answer to a call on a page.
#[derive(Clone, Copy, Debug, PartialEq, Eq)]
pub enum Answer {
    /// The call is done. The entry names this address.
    Done(u64),
    /// The call is refused.
    Refused(Refusal),
}

/// The result of translating a position: the number of an address counted without the gap in the middle of the address space.
#[derive(Clone, Copy, Debug, PartialEq, Eq)]
pub enum Translated {
    /// The position isn't mapped.
    NotMapped,
    /// The position is mapped to an offset in a frame of a size, by an entry with these flags.
    Mapped { size: u64, frame: u64, offset: u64, flags: u64 },
}

/// A page.
#[derive(Clone, Copy, Debug, PartialEq, Eq)]
pub struct PlainPage {
    /// The level of the entry that maps it.
    pub level: usize,
    /// The position of its start.
    pub position: u64,
}

impl PlainPage {
    /// Returns the path of the entry that maps it, with this many levels.
    ///
    /// # Errors
    ///
    /// `AllocError` if memory allocation fails.
    pub fn path(self, levels: usize) -> Result<Vec<u64>, AllocError> {
        let mut path = page_path(levels, self.position)?;
        path.truncate((levels + 1).saturating_sub(self.level));
        Ok(path)
    }
}

/// A call. A frame is named by its address.
#[derive(Clone, Copy, Debug, PartialEq, Eq)]
pub enum PlainCall {
    /// Maps a page to a frame.
    MapTo { page: PlainPage, frame: u64, flags: u64 },
    /// Maps a page to a frame, with flags for the page's parents.
    MapToWithTableFlags { page: PlainPage, frame: u64, flags: u64, parent_flags: u64 },
    /// Maps the page of a level that starts at the frame's own address to the frame.
    IdentityMap { level: usize, frame: u64, flags: u64 },
    /// Unmaps a page.
    Unmap { page: PlainPage },
    /// Sets the flags of a mapped page.
    UpdateFlags { page: PlainPage, flags: u64 },
    /// Sets the flags of the entry of a level on the page's path.
    SetFlags { level: usize, page: PlainPage, flags: u64 },
    /// Returns the frame of a mapped page.
    TranslatePage { page: PlainPage },
    /// Translates a position.
    Translate { position: u64 },
    /// Returns the physical address to which a position is mapped.
    TranslateAddress { position: u64 },
    /// Frees the empty tables of the positions from low to high.
    CleanUp { low: u64, high: u64 },
}

/// The reply to a call.
#[derive(Clone, Copy, Debug, PartialEq, Eq)]
pub enum PlainReply {
    /// The call isn't allowed.
    NotAllowed,
    /// The answer to a call on a page.
    Answered(Answer),
    /// The result of translating a position.
    Position(Translated),
    /// The physical address to which a position is mapped.
    Address(Option<u64>),
    /// The clean up is done.
    Cleaned,
}
