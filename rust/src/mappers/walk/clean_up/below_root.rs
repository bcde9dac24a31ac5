//! Clean up below the tables that the root's entries name. These tables are kept, as other roots may name them too.

use super::{clean_up_table, is_recursive, page_number, PathRange};
use crate::addresses::index::PageTableIndex;
use crate::addresses::level_count::LevelCount;
use crate::mappers::walk::parents::next_table;
use crate::mappers::walk::path::path_of_address;
use crate::mappers::walk::TableAccess;
use crate::pages::frame::PhysFrame;
use crate::pages::page::{PageIn, Size4KiB};
use crate::pages::range::BlockRangeInclusive;
use crate::tables::frame_alloc::FrameDeallocator;
use crate::tables::page_tables::TablesIn;

/// Removes the empty tables on the paths of the pages of a range, but none that an entry of the root names, and returns
/// their frames to the deallocator, with all words 0.
///
/// Requires that the hierarchy is valid, and that the deallocator serves the frame of each table but the root and
/// doesn't hold it. [`CleanUp::clean_up_below_root`](crate::mappers::mapper::CleanUp::clean_up_below_root) says which tables are
/// removed.
///
/// # Proved
///
/// ```text
/// requires { MayCleanUpInto (M.hierarchy mapper.old) (deallocator_store D.FrameDeallocator frame_deallocator.old) }
/// ensures { CleansUpBelowRoot (M.hierarchy mapper.old) (deallocator_store D.FrameDeallocator frame_deallocator.old) range.start (range.end + 0xfff) (M.hierarchy mapper.new) (deallocator_store D.FrameDeallocator frame_deallocator.new) }
/// ```
pub fn clean_up_below_root<M: TableAccess + TablesIn<L> + ?Sized, L: LevelCount, D: FrameDeallocator<Size4KiB> + ?Sized>(
    mapper: &mut M,
    range: BlockRangeInclusive<PageIn<Size4KiB, L>>,
    frame_deallocator: &mut D,
) {
    let first = path_of_address(mapper, range.start.start_address());
    let last = path_of_address(mapper, range.end.start_address());
    clean_up_paths_below_root(mapper, first.indices(), last.indices(), frame_deallocator);
}

/// Removes the empty tables on the paths of the pages between two paths, both included, but none that an entry of the
/// root names, and returns their frames to the deallocator.
fn clean_up_paths_below_root<M: TableAccess + ?Sized, D: FrameDeallocator<Size4KiB> + ?Sized>(
    mapper: &mut M,
    first: &[PageTableIndex],
    last: &[PageTableIndex],
    frame_deallocator: &mut D,
) {
    if page_number(last) < page_number(first) {
        return;
    }
    let range = PathRange { first, last };
    for index in u16::from(first[0])..u16::from(last[0]) + 1 {
        clean_up_below_entry(mapper, &range, PageTableIndex::new_proved(index), frame_deallocator);
    }
}

/// Removes the empty tables below the table that an entry of the root names, and keeps this table.
///
/// Nothing changes if the entry isn't present, or is the root's entry for itself.
fn clean_up_below_entry<M: TableAccess + ?Sized, D: FrameDeallocator<Size4KiB> + ?Sized>(
    mapper: &mut M,
    range: &PathRange,
    index: PageTableIndex,
    frame_deallocator: &mut D,
) {
    if is_recursive(mapper, &[], index) {
        return;
    }
    let root = mapper.root();
    if let Ok(table) = next_table(mapper, &[], root, index) {
        clean_up_table(mapper, range, &[index], table, frame_deallocator);
    }
}
