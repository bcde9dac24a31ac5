//! Words in memory.

use x86_64_paging::structures::paging::page_table::PageTableIndex;
use x86_64_paging::structures::paging::{PageSize, PhysFrame, Size4KiB};
use x86_64_paging::{FramePlace, PhysAddr, PhysMemory};

/// A word in memory, as the place of a table (its index in memory) and an index in the table.
#[derive(Clone, Copy)]
pub struct Slot {
    place: FramePlace,
    index: PageTableIndex,
}

impl Slot {
    /// Returns the slot at an index of the table in a frame, if each frame lies at the place of its number.
    pub fn at(frame: PhysFrame<Size4KiB>, index: PageTableIndex) -> Slot {
        let number = frame.start_address().as_u64() / Size4KiB::SIZE;
        Slot { place: FramePlace::new(number), index }
    }

    /// Returns the word, or 0 if the memory lacks the table.
    pub fn word(self, memory: &PhysMemory) -> u64 {
        match memory.table(self.place) {
            Some(table) => table[self.index].word(),
            None => 0,
        }
    }

    /// Sets the word. Changes nothing if the memory lacks the table.
    pub fn set_word(self, memory: &mut PhysMemory, word: u64) {
        if let Some(table) = memory.table_mut(self.place) {
            table[self.index].set_word(word);
        }
    }
}

/// Returns the 4KiB frame that starts at an address, for a memory with this number of places.
///
/// Returns `None` if and only if no such frame starts there, or its number isn't below `places`.
pub fn frame_at(start: u64, places: u64) -> Option<PhysFrame<Size4KiB>> {
    let frame = PhysFrame::from_start_address(PhysAddr::try_new(start).ok()?).ok()?;
    if start / Size4KiB::SIZE < places {
        Some(frame)
    } else {
        None
    }
}

/// Returns the slot at an index of the table in the 4KiB frame that starts at an address, for a memory with this
/// number of places.
///
/// Returns `None` if and only if [`frame_at`] does, or `index` isn't below 512.
pub fn slot_at(start: u64, index: u64, places: u64) -> Option<Slot> {
    let frame = frame_at(start, places)?;
    Some(Slot::at(frame, index_at(index)?))
}

/// Returns a number as an index of a table, or `None` if it isn't below 512.
pub fn index_at(number: u64) -> Option<PageTableIndex> {
    if number < 512 {
        Some(PageTableIndex::new(number as u16))
    } else {
        None
    }
}
