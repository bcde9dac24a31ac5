//! The search for the next page of a range. It passes over what a missing table spans by one look.

use super::RangeEnd;
use crate::addresses::level_count::LevelCount;
use crate::pages::frame::PhysFrame;
use crate::pages::page::{PageIn, Size4KiB};
use crate::pages::range::Block;
use crate::tables::page_table::{has_flag, PageTableEntry, PageTableFlags};
use crate::tables::phys_memory::{index_of, table_in, PageTableFrameMapping, TableMemory};

/// Which words of pages are wanted.
#[derive(Clone, Copy)]
pub(super) enum Wanted {
    /// All but 0.
    Used,
    /// Those with `PRESENT`.
    Present,
}

impl Wanted {
    /// Returns true if the word of a page is wanted.
    #[inline]
    fn has(self, word: u64) -> bool {
        let entry = PageTableEntry::from_word(word);
        match self {
            Wanted::Used => !entry.is_unused(),
            Wanted::Present => has_flag(&entry, PageTableFlags::PRESENT),
        }
    }
}

/// Where a range goes on: at a position (the number of an address counted without the gap), from a table on the way to it.
#[derive(Clone, Copy)]
pub(super) struct Cursor {
    /// The position.
    pub(super) position: u64,
    /// The frame of the table.
    pub(super) frame: PhysFrame<Size4KiB>,
    /// The level of the table.
    pub(super) level: u64,
}

impl Cursor {
    /// Returns the cursor at a position, before any table but the root.
    pub(super) fn at_root<L: LevelCount>(position: u64, root: PhysFrame<Size4KiB>) -> Cursor {
        Cursor { position, frame: root, level: L::LEVELS }
    }

    /// Returns the word that the cursor's table has for its position, or 0 if its frame has no table.
    fn word<T: TableMemory, P: PageTableFrameMapping>(&self, memory: &T, mapping: &P) -> u64 {
        match table_in(memory, mapping, self.frame) {
            Some(table) => table[index_of(self.position, self.level)].word(),
            None => 0,
        }
    }
}

/// An entry on the way to a position, and its word.
#[derive(Clone, Copy)]
pub(super) struct Spot {
    /// The position to which the way leads.
    pub(super) position: u64,
    /// The frame of the table.
    pub(super) frame: PhysFrame<Size4KiB>,
    /// The level of the table.
    pub(super) level: u64,
    /// The word.
    pub(super) word: u64,
}

impl Spot {
    /// Reads the entry that a cursor's table has for its position.
    fn read<T: TableMemory, P: PageTableFrameMapping>(memory: &T, mapping: &P, at: &Cursor) -> Spot {
        Spot { position: at.position, frame: at.frame, level: at.level, word: at.word(memory, mapping) }
    }

    /// Returns the table that the word names, on the way to the same position.
    fn below(&self) -> Option<Cursor> {
        let entry = PageTableEntry::from_word(self.word);
        if self.level == 1 || entry.is_unused() || has_flag(&entry, PageTableFlags::HUGE_PAGE) {
            return None;
        }
        Some(Cursor {
            position: self.position,
            frame: PhysFrame::from_start_address_unchecked(entry.addr()),
            level: self.level - 1,
        })
    }

    /// Returns true if the entry is that of a page, and wanted.
    #[inline]
    fn is_page(&self, wanted: Wanted) -> bool {
        let entry = PageTableEntry::from_word(self.word);
        wanted.has(self.word) && (self.level == 1 || has_flag(&entry, PageTableFlags::HUGE_PAGE))
    }

    /// Returns the number of positions that the entry spans.
    #[inline]
    pub(super) fn span(&self) -> u64 {
        1 << (12 + 9 * (self.level - 1))
    }

    /// Returns true if what the entry spans begins at the cursor's position, and ends before `end` or there.
    #[inline]
    fn is_whole(&self, end: u64) -> bool {
        let span = self.span();
        let position = self.position;
        position % span == 0 && position + span <= end
    }

    /// Returns the cursor behind what the entry spans: in the same table, or at the root if the table ends there.
    pub(super) fn past<L: LevelCount>(&self, root: PhysFrame<Size4KiB>) -> Cursor {
        let span = self.span();
        let position = self.position / span * span + span;
        if index_of(position, self.level) == 0 {
            return Cursor::at_root::<L>(position, root);
        }
        Cursor { position, frame: self.frame, level: self.level }
    }
}

/// Looks down from a cursor's table to the entry that names no table.
fn look_down<T: TableMemory, P: PageTableFrameMapping>(memory: &T, mapping: &P, levels: u64, from: &Cursor) -> Spot {
    let mut spot = Spot::read(memory, mapping, from);
    while let Some(below) = spot.below() {
        spot = Spot::read(memory, mapping, &below);
    }
    spot
}

/// Returns the first wanted page from a cursor on, up to but excluding the position `end`, or why there is none: it is a larger one that
/// lies only partly before `end` or from the cursor on, or there is no page at all.
pub(super) fn next_page<L: LevelCount, T: TableMemory, P: PageTableFrameMapping>(
    memory: &T,
    mapping: &P,
    root: PhysFrame<Size4KiB>,
    end: u64,
    wanted: Wanted,
    from: Cursor,
) -> Result<Spot, RangeEnd<L>> {
    let mut cursor = from;
    while cursor.position < end {
        let spot = look_down(memory, mapping, L::LEVELS, &cursor);
        if spot.is_page(wanted) {
            return if spot.is_whole(end) { Ok(spot) } else { Err(RangeEnd::LargerPage(PageIn::at(spot.position))) };
        }
        cursor = spot.past::<L>(root);
    }
    Err(RangeEnd::All)
}
