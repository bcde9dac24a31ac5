//! The entries that a page walk reads, and why it ends.

use crate::addresses::addr::VirtAddrIn;
use crate::addresses::level_count::LevelCount;
use crate::pages::frame::PhysFrame;
use crate::pages::page::Size4KiB;
use crate::tables::page_table::{has_flag, PageTableFlags, Rights};
use crate::tables::phys_memory::{PageTableFrameMapping, Step, Steps, TableMemory};

/// The most levels of tables, and so the most entries that a walk reads.
pub const MOST_LEVELS: usize = 5;

/// An entry that a page walk reads.
#[derive(Clone, Copy, Debug, PartialEq)]
#[repr(C)]
pub struct WalkEntry {
    /// The level of its table.
    pub level: u64,
    /// The physical address of its table.
    pub table: u64,
    /// Its index in the table.
    pub index: u64,
    /// Its word.
    pub word: u64,
}

impl WalkEntry {
    /// No entry.
    pub const NONE: WalkEntry = WalkEntry { level: 0, table: 0, index: 0, word: 0 };

    /// Creates the entry for a word that a walk reads.
    #[inline]
    fn of(step: &Step) -> WalkEntry {
        WalkEntry { level: step.level, table: step.frame.start_address().as_u64(), index: step.index as u64, word: step.word }
    }
}

/// Why a page walk ends at the last entry that it reads.
#[derive(Clone, Copy, Debug, PartialEq)]
pub enum WalkEnd {
    /// The entry maps a page, at which the walk arrives.
    Page,
    /// The entry lacks `PRESENT`.
    NotPresent,
    /// The entry has `HUGE_PAGE` above level three, where it maps no page.
    HugePage,
    /// The table that the entry names isn't in the memory, or the root's table isn't, so that no entry is read.
    NoTable,
}

impl WalkEnd {
    /// Returns why a walk ends at a word, if it goes on to no further one.
    fn at(step: &Step) -> WalkEnd {
        let entry = step.entry();
        if !has_flag(&entry, PageTableFlags::PRESENT) {
            WalkEnd::NotPresent
        } else if entry.maps_page(step.level) {
            WalkEnd::Page
        } else if has_flag(&entry, PageTableFlags::HUGE_PAGE) {
            WalkEnd::HugePage
        } else {
            WalkEnd::NoTable
        }
    }
}

/// What a page walk reads.
#[derive(Clone, Copy, Debug, PartialEq)]
pub struct EntriesRead {
    /// The number of entries.
    pub count: usize,
    /// What all of them allow.
    pub rights: Rights,
    /// Why the walk ends.
    pub end: WalkEnd,
}

/// Writes the entries that the page walk to an address reads, from the root's on, and returns how many, what all of them allow, and why
/// the walk ends. There are as many levels of page tables as the address has.
///
/// The tables may contain any words. Reserved bits but `HUGE_PAGE` are ignored, as in
/// [`page_walk`](crate::tables::phys_memory::page_walk). The array keeps what it holds behind the entries that are written.
///
/// Requires that there is room for `L::LEVELS` entries. [`MOST_LEVELS`] are always enough.
///
/// Intel SDM vol. 3A, "4-Level Paging and 5-Level Paging"; AMD APM vol. 2, "Long-Mode Page Translation".
///
/// # Panics
///
/// Panics if a condition doesn't hold. It is tested so:
///
/// ```text
/// assert!(L::LEVELS <= entries.len() as u64);
/// ```
///
/// # Proved
///
/// ```text
/// requires { L.LEVELS ≤ length entries.old }
/// ensures writes { walk.Writes (steps (words_of (T.tables memory.now) (P.places mapping.now)) address L.LEVELS root) entries.old entries.new result.count }
/// ensures rights { result.rights ≡ rights_in (steps (words_of (T.tables memory.now) (P.places mapping.now)) address L.LEVELS root) }
/// ensures end { result.end ≡ walk.end_of (steps (words_of (T.tables memory.now) (P.places mapping.now)) address L.LEVELS root) }
/// ```
pub fn read_entries<L: LevelCount, T: TableMemory, P: PageTableFrameMapping>(
    memory: &T,
    mapping: &P,
    root: PhysFrame<Size4KiB>,
    address: VirtAddrIn<L>,
    entries: &mut [WalkEntry],
) -> EntriesRead {
    assert!(L::LEVELS <= entries.len() as u64);
    let mut count = 0;
    let mut rights = Rights::ALL;
    let mut end = WalkEnd::NoTable;
    for step in Steps::new(memory, mapping, root, address) {
        entries[count] = WalkEntry::of(&step);
        count += 1;
        rights = rights.below(&step.entry());
        end = WalkEnd::at(&step);
    }
    EntriesRead { count, rights, end }
}
