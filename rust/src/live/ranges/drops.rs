//! Ranges of pages that are dropped, with the tables that become empty.

use super::search::{next_page, Cursor, Wanted};
use super::{end_of, set_word_at, RangeEnd};
use crate::addresses::level_count::LevelCount;
use crate::mappers::calls::clean_up_range;
use crate::mappers::mapped_page_table::MappedPageTableIn;
use crate::pages::frame::PhysFrame;
use crate::pages::page::{PageIn, Size4KiB};
use crate::pages::range::{Block, BlockRangeInclusive};
use crate::tables::frame_alloc::FrameDeallocator;
use crate::tables::phys_memory::{PageTableFrameMapping, TableMemory};

/// Takes away the pages of a range, as [`take_range`](super::take_range) does, but tells none, and then frees the empty tables of the
/// range, as [`clean_up_range`] does: their frames go to the deallocator, with all words 0. So a process can be ended by one call.
///
/// It passes over the range twice, and each time reads at most all entries of the tables that are there. It stops at a larger page that
/// lies only partly in the range, and returns where: the pages before it are gone, and it and those behind it stay. It never returns
/// [`RangeEnd::More`].
///
/// Requires that the hierarchy is valid, and that the deallocator serves the frame of each table but the root and doesn't hold it.
///
/// # Proved
///
/// ```text
/// requires { MayCleanUpInto (direct_at L.LEVELS (P.places mapping) root laid_in T.tables memory.old) (deallocator_store D.FrameDeallocator frame_deallocator.old) }
/// ensures drops { let layout = direct_at L.LEVELS (P.places mapping) root in DropsRange (layout laid_in T.tables memory.old) (deallocator_store D.FrameDeallocator frame_deallocator.old) range.start range.end result (layout laid_in T.tables memory.new) (deallocator_store D.FrameDeallocator frame_deallocator.new) }
/// ensures lent { T.lent memory.new ≡ T.lent memory.old }
/// ```
pub fn drop_range<L: LevelCount, T: TableMemory, P: PageTableFrameMapping, D: FrameDeallocator<Size4KiB> + ?Sized>(
    memory: &mut T,
    mapping: P,
    root: PhysFrame<Size4KiB>,
    range: BlockRangeInclusive<PageIn<Size4KiB, L>>,
    frame_deallocator: &mut D,
) -> RangeEnd<L> {
    let pages = PageIn::range_inclusive(range.start, range.end);
    let end = take_all::<L, T, P>(memory, &mapping, root, range);
    let mut mapper = MappedPageTableIn::<_, L, T>::new(memory, root, mapping);
    clean_up_range(&mut mapper, pages, frame_deallocator);
    end
}

/// Takes away the pages of a range, and returns why it ends.
fn take_all<L: LevelCount, T: TableMemory, P: PageTableFrameMapping>(
    memory: &mut T,
    mapping: &P,
    root: PhysFrame<Size4KiB>,
    range: BlockRangeInclusive<PageIn<Size4KiB, L>>,
) -> RangeEnd<L> {
    let end = end_of(range);
    let mut cursor = Cursor::at_root::<L>(range.start.place(), root);
    loop {
        match next_page::<L, T, P>(memory, mapping, root, end, Wanted::Used, cursor) {
            Ok(spot) => {
                set_word_at(memory, mapping, &spot, 0);
                cursor = spot.past::<L>(root);
            }
            Err(end) => return end,
        }
    }
}
