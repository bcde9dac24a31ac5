//! Looks before a map

use crate::addresses::level_count::LevelCount;
use crate::pages::frame::PhysFrame;
use crate::pages::page::{PageIn, PageSize, Size4KiB};
use crate::tables::errors::MapToError;
use crate::tables::page_table::{has_flag, PageTableEntry, PageTableFlags};
use crate::tables::phys_memory::{table_in, PageTableFrameMapping, TableMemory};

/// Returns what a map of a page to a frame would return, with this many free frames for new tables, and changes nothing.
///
/// Looks as [`would_prepare`] does, and reads the page's own entry if there is one. The answer is the same for all flags and
/// parent flags. Requires that the hierarchy is valid.
///
/// # Errors
///
/// Those of [`would_prepare`], else `PageAlreadyMapped` with the frame if the page's own entry is used.
///
/// # Proved
///
/// ```text
/// requires { Valid (direct_at L.LEVELS (P.places mapping.now) root laid_in T.tables memory.now) }
/// ensures { WouldAnswer (direct_at L.LEVELS (P.places mapping.now) root laid_in T.tables memory.now) S.LEVEL page frame free_frames (map_answer frame result) }
/// ```
pub fn would_map<S: PageSize, L: LevelCount, T: TableMemory, P: PageTableFrameMapping>(
    memory: &T,
    mapping: &P,
    root: PhysFrame<Size4KiB>,
    page: PageIn<S, L>,
    frame: PhysFrame<S>,
    free_frames: usize,
) -> Result<(), MapToError<S>> {
    let Some(table) = would_prepare(memory, mapping, root, page, free_frames)? else {
        return Ok(());
    };
    if entry_of(memory, mapping, table, page, S::LEVEL).is_unused() {
        Ok(())
    } else {
        Err(MapToError::PageAlreadyMapped(frame))
    }
}

/// Returns the frame of the table with the entry of a page, or `None` if that table is missing and a map with this many free frames
/// would make it. Changes nothing.
///
/// Reads one entry of each level, from the root's down to the one above the page's own, to an unused one, or to one with `HUGE_PAGE`.
/// The answer is the same for all parent flags. Requires that the hierarchy is valid.
///
/// # Errors
///
/// `ParentEntryHugePage` if a used entry above the page's own has `HUGE_PAGE`, else `FrameAllocationFailed` if more tables are
/// missing than frames are free.
///
/// # Proved
///
/// ```text
/// requires { Valid (direct_at L.LEVELS (P.places mapping.now) root laid_in T.tables memory.now) }
/// ensures refusal { WouldRefuse (direct_at L.LEVELS (P.places mapping.now) root laid_in T.tables memory.now) S.LEVEL page free_frames (tables_refusal result) }
/// ensures table { IfOk result (λ table. IsEntryIn (direct_at L.LEVELS (P.places mapping.now) root laid_in T.tables memory.now) S.LEVEL page table) }
/// ```
pub fn would_prepare<S: PageSize, L: LevelCount, T: TableMemory, P: PageTableFrameMapping>(
    memory: &T,
    mapping: &P,
    root: PhysFrame<Size4KiB>,
    page: PageIn<S, L>,
    free_frames: usize,
) -> Result<Option<PhysFrame<Size4KiB>>, MapToError<S>> {
    let mut table = root;
    for above in 0..L::LEVELS - S::LEVEL {
        let level = L::LEVELS - above;
        let entry = entry_of(memory, mapping, table, page, level);
        if entry.is_unused() {
            return if (free_frames as u64) < level - S::LEVEL { Err(MapToError::FrameAllocationFailed) } else { Ok(None) };
        }
        if has_flag(&entry, PageTableFlags::HUGE_PAGE) {
            return Err(MapToError::ParentEntryHugePage);
        }
        table = PhysFrame::from_start_address_unchecked(entry.addr());
    }
    Ok(Some(table))
}

/// Returns the entry of a level on the way to a page, in the table in a frame, or an unused entry if the frame has no table.
fn entry_of<S: PageSize, L: LevelCount, T: TableMemory, P: PageTableFrameMapping>(
    memory: &T,
    mapping: &P,
    table: PhysFrame<Size4KiB>,
    page: PageIn<S, L>,
    level: u64,
) -> PageTableEntry {
    let index = usize::from(page.table_index(level));
    match table_in(memory, mapping, table) {
        Some(table) => PageTableEntry::from_word(table[index].word()),
        None => PageTableEntry::new(),
    }
}
