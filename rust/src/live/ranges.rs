//! Ranges of pages of all sizes

mod drops;
mod search;

use crate::addresses::addr::VirtAddrIn;
use crate::addresses::level_count::LevelCount;
use crate::pages::frame::PhysFrame;
use crate::pages::page::{PageIn, Size4KiB};
use crate::pages::range::{Block, BlockRangeInclusive};
use crate::tables::phys_memory::{index_of, PageTableFrameMapping, TableMemory};
pub use drops::drop_range;
use search::{next_page, Cursor, Spot, Wanted};

/// The bits of an entry that say what it names: `HUGE_PAGE`, and the address, bits 12 to 51.
const TARGET_BITS: u64 = 0x000f_ffff_ffff_f080;

/// A page and the word of its entry.
#[derive(Clone, Copy, Debug, PartialEq)]
#[repr(C)]
pub struct PageWord {
    /// The page's first address.
    pub page: u64,
    /// Its size in bytes.
    pub size: u64,
    /// The word of its entry.
    pub word: u64,
}

impl PageWord {
    /// No page.
    pub const NONE: PageWord = PageWord { page: 0, size: 0, word: 0 };
}

/// Why a range ends, and where it goes on.
#[derive(Clone, Copy, Debug, PartialEq)]
pub enum RangeEnd<L: LevelCount> {
    /// All pages of the range are in the array.
    All,
    /// The array is full. The next page is in the range, too, and the range goes on there.
    More(PageIn<Size4KiB, L>),
    /// A larger page lies only partly in the range, which goes on there if the page is split.
    LargerPage(PageIn<Size4KiB, L>),
}

/// Why a range ends, without the page.
#[derive(Clone, Copy, Debug, PartialEq)]
pub enum RangeStop {
    /// All pages of the range are in the array.
    All,
    /// The array is full.
    More,
    /// A larger page lies only partly in the range.
    LargerPage,
}

impl<L: LevelCount> RangeEnd<L> {
    /// Returns why the range ends.
    ///
    /// # Proved
    ///
    /// ```text
    /// ensures { result ≡ stop_of self.now }
    /// ```
    pub fn stop(&self) -> RangeStop {
        match self {
            RangeEnd::All => RangeStop::All,
            RangeEnd::More(_) => RangeStop::More,
            RangeEnd::LargerPage(_) => RangeStop::LargerPage,
        }
    }

    /// Returns the address at which the range goes on, or `None` if all pages are in the array.
    ///
    /// # Proved
    ///
    /// ```text
    /// ensures { result ≡ option_map (raw L.LEVELS) (goes_on_at self.now) }
    /// ```
    pub fn next_address(&self) -> Option<u64> {
        match self {
            RangeEnd::All => None,
            RangeEnd::More(next) => Some(next.start_address().as_u64()),
            RangeEnd::LargerPage(next) => Some(next.start_address().as_u64()),
        }
    }
}

/// What a range came to.
#[derive(Clone, Copy, Debug, PartialEq)]
pub struct RangeSeen<L: LevelCount> {
    /// The number of pages in the array.
    pub count: usize,
    /// Why the range ends.
    pub end: RangeEnd<L>,
}

/// Writes the pages of a range to an array, from its start on: each whose entry isn't 0, present or not, of 4KiB, 2MiB and 1GiB,
/// in order, with its address, size and word. Nothing is changed.
///
/// A missing table is passed over by one look. It ends where the array is full, and at a larger page that lies only partly in the
/// range. An entry that names a table, present or not, is no page. The range is empty if its end lies before its start.
///
/// Requires that the hierarchy is valid.
///
/// # Proved
///
/// ```text
/// requires { Valid (direct_at L.LEVELS (P.places mapping.now) root laid_in T.tables memory.now) }
/// ensures { SeesPages L.LEVELS used (paths (direct_at L.LEVELS (P.places mapping.now) root laid_in T.tables memory.now)) range.start range.end pages.old pages.new result }
/// ```
pub fn list_range<L: LevelCount, T: TableMemory, P: PageTableFrameMapping>(
    memory: &T,
    mapping: &P,
    root: PhysFrame<Size4KiB>,
    range: BlockRangeInclusive<PageIn<Size4KiB, L>>,
    pages: &mut [PageWord],
) -> RangeSeen<L> {
    let end = end_of(range);
    let mut cursor = Cursor::at_root::<L>(range.start.place(), root);
    let mut count = 0;
    loop {
        let spot = match next_page::<L, T, P>(memory, mapping, root, end, Wanted::Used, cursor) {
            Ok(spot) => spot,
            Err(end) => return RangeSeen { count, end },
        };
        if count == pages.len() {
            let end = RangeEnd::More(PageIn::at(spot.position));
            return RangeSeen { count, end };
        }
        pages[count] = word_told::<L>(&spot);
        count += 1;
        cursor = spot.past::<L>(root);
    }
}

/// Returns the position behind the last page of a range.
fn end_of<L: LevelCount>(range: BlockRangeInclusive<PageIn<Size4KiB, L>>) -> u64 {
    range.end.place() + 4096
}

/// Returns a page as it is told.
fn word_told<L: LevelCount>(spot: &Spot) -> PageWord {
    PageWord { page: VirtAddrIn::<L>::new_truncate(spot.position).as_u64(), size: spot.span(), word: spot.word }
}

/// Takes away the pages of a range: writes them to an array as [`list_range`] does, and their entries become 0, one after another. The
/// words that were there come back with all their bits. No table is freed, and nothing else changes.
///
/// Where a range goes on after the array was full, a call for the rest takes the rest away.
///
/// Requires that the hierarchy is valid.
///
/// # Proved
///
/// ```text
/// requires { Valid (direct_at L.LEVELS (P.places mapping.now) root laid_in T.tables memory.old) }
/// ensures sees { SeesPages L.LEVELS used (paths (direct_at L.LEVELS (P.places mapping.now) root laid_in T.tables memory.old)) range.start range.end pages.old pages.new result }
/// ensures changes { let layout = direct_at L.LEVELS (P.places mapping.now) root in ExchangesPages layout (λ _. 0) (page_entries L.LEVELS used (paths (layout laid_in T.tables memory.old)) range.start (reached range.end result.end)) (T.tables memory.old) (T.tables memory.new) }
/// ensures lent { T.lent memory.new ≡ T.lent memory.old }
/// ```
pub fn take_range<L: LevelCount, T: TableMemory, P: PageTableFrameMapping>(
    memory: &mut T,
    mapping: &P,
    root: PhysFrame<Size4KiB>,
    range: BlockRangeInclusive<PageIn<Size4KiB, L>>,
    pages: &mut [PageWord],
) -> RangeSeen<L> {
    let masks = Masks { keep: 0, set: 0 };
    change_pages::<L, T, P>(memory, mapping, root, range, Wanted::Used, masks, pages)
}

/// Returns true if masks change flags alone: `keep` has `HUGE_PAGE` and all bits of the address, 12 to 51, and `set` has none of them.
///
/// # Proved
///
/// ```text
/// ensures { result ≡ are_flag_masks keep set }
/// ```
#[inline]
pub fn are_flag_masks(keep: u64, set: u64) -> bool {
    keep & TARGET_BITS == TARGET_BITS && set & TARGET_BITS == 0
}

/// Changes the flags of the present pages of a range: writes them to an array, with the words that were there, as [`list_range`] does,
/// and their words keep the bits in `keep` and get those in `set`, one after another. Nothing else changes.
///
/// Pages without `PRESENT` are passed over, also larger ones that lie only partly in the range.
///
/// Requires that the hierarchy is valid, and that [`are_flag_masks`] returns true.
///
/// # Panics
///
/// Panics if a condition doesn't hold. It is tested so:
///
/// ```text
/// assert!(are_flag_masks(keep, set));
/// ```
///
/// # Proved
///
/// ```text
/// requires valid { Valid (direct_at L.LEVELS (P.places mapping.now) root laid_in T.tables memory.old) }
/// requires masks { are_flag_masks keep set ≡ true }
/// ensures sees { SeesPages L.LEVELS present (paths (direct_at L.LEVELS (P.places mapping.now) root laid_in T.tables memory.old)) range.start range.end pages.old pages.new result }
/// ensures changes { let layout = direct_at L.LEVELS (P.places mapping.now) root in ExchangesPages layout (by_masks keep set) (page_entries L.LEVELS present (paths (layout laid_in T.tables memory.old)) range.start (reached range.end result.end)) (T.tables memory.old) (T.tables memory.new) }
/// ensures lent { T.lent memory.new ≡ T.lent memory.old }
/// ```
pub fn change_range<L: LevelCount, T: TableMemory, P: PageTableFrameMapping>(
    memory: &mut T,
    mapping: &P,
    root: PhysFrame<Size4KiB>,
    range: BlockRangeInclusive<PageIn<Size4KiB, L>>,
    keep: u64,
    set: u64,
    pages: &mut [PageWord],
) -> RangeSeen<L> {
    assert!(are_flag_masks(keep, set));
    let masks = Masks { keep, set };
    change_pages::<L, T, P>(memory, mapping, root, range, Wanted::Present, masks, pages)
}

/// What becomes of the word of a page: bits that are kept, and bits that are set then.
#[derive(Clone, Copy)]
struct Masks {
    /// The bits that are kept.
    keep: u64,
    /// The bits that are set.
    set: u64,
}

/// Writes the wanted pages of a range to an array as [`list_range`] does, and changes the word of each by masks.
fn change_pages<L: LevelCount, T: TableMemory, P: PageTableFrameMapping>(
    memory: &mut T,
    mapping: &P,
    root: PhysFrame<Size4KiB>,
    range: BlockRangeInclusive<PageIn<Size4KiB, L>>,
    wanted: Wanted,
    masks: Masks,
    pages: &mut [PageWord],
) -> RangeSeen<L> {
    let end = end_of(range);
    let mut cursor = Cursor::at_root::<L>(range.start.place(), root);
    let mut count = 0;
    loop {
        let spot = match next_page::<L, T, P>(memory, mapping, root, end, wanted, cursor) {
            Ok(spot) => spot,
            Err(end) => return RangeSeen { count, end },
        };
        if count == pages.len() {
            let end = RangeEnd::More(PageIn::at(spot.position));
            return RangeSeen { count, end };
        }
        pages[count] = word_told::<L>(&spot);
        count += 1;
        set_word_at(memory, mapping, &spot, spot.word & masks.keep | masks.set);
        cursor = spot.past::<L>(root);
    }
}

/// Sets the word at a spot.
fn set_word_at<T: TableMemory, P: PageTableFrameMapping>(memory: &mut T, mapping: &P, spot: &Spot, word: u64) {
    let table = memory.table_at_mut(mapping.frame_to_pointer(spot.frame));
    table[index_of(spot.position, spot.level)].set_word(word);
}
