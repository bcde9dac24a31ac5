//! Why a page isn't mapped, unmapped, changed or translated.
use crate::addresses::addr::PhysAddr;
use crate::pages::frame::PhysFrame;
use crate::pages::page::PageSize;

/// The reason why a page was not mapped.
#[derive(Clone, Copy, Debug, PartialEq)]
pub enum MapToError<S: PageSize> {
    /// A page table was missing, and there was no frame for it.
    FrameAllocationFailed,
    /// A used parent entry of the page has `HUGE_PAGE`, whether it has `PRESENT` or not.
    ParentEntryHugePage,
    /// The page's entry was already used. The frame is the requested one, not the one that the page is mapped to.
    PageAlreadyMapped(PhysFrame<S>),
}

/// The reason why a page was not unmapped.
#[derive(Clone, Copy, Debug, PartialEq)]
pub enum UnmapError {
    /// A parent entry of the page maps a larger page, or `HUGE_PAGE` of the page's own entry doesn't match the page's size.
    ParentEntryHugePage,
    /// A parent entry or the page's own entry lacks `PRESENT`.
    PageNotMapped,
    /// The page's entry holds an address that isn't a multiple of the page's size.
    InvalidFrameAddress(PhysAddr),
}

/// The reason why the flags of an entry were not changed.
#[derive(Clone, Copy, Debug, PartialEq)]
pub enum FlagUpdateError {
    /// A parent entry lacks `PRESENT`, the entry is unused, or it is the entry of a 2MiB or 1GiB page and lacks `HUGE_PAGE`.
    PageNotMapped,
    /// A parent entry maps a larger page, or a page of this size has no parent entry of that level.
    ParentEntryHugePage,
}

/// The reason why a page has no frame.
#[derive(Clone, Copy, Debug, PartialEq)]
pub enum TranslateError {
    /// A parent entry of the page lacks `PRESENT`, or the page's own entry is unused.
    PageNotMapped,
    /// A parent entry of the page maps a larger page.
    ParentEntryHugePage,
    /// The page's entry names a table, or holds an address that isn't a multiple of the page's size.
    InvalidFrameAddress(PhysAddr),
}
