//! Ranges of pages, in order of position: the number of an address counted without the gap in the middle of the address space.

use crate::addresses::addr::VirtAddrIn;
use crate::addresses::level_count::LevelCount;
use crate::pages::page::{Page, Page57, PageIn, PageSize, Size2MiB, Size4KiB};
use crate::pages::range::{Block, BlockRange, BlockRangeInclusive};

/// The pages from `start` up to but excluding `end`, by position.
pub type PageRange<S = Size4KiB> = BlockRange<Page<S>>;

/// The pages from `start` up to and including `end`, by position.
pub type PageRangeInclusive<S = Size4KiB> = BlockRangeInclusive<Page<S>>;

/// The pages from `start` up to and including `end`, by position, with five levels of page tables.
pub type PageRangeInclusive57<S = Size4KiB> = BlockRangeInclusive<Page57<S>>;

impl<S: PageSize, L: LevelCount> Block for PageIn<S, L> {
    const SIZE: u64 = S::SIZE;

    const LIMIT: u64 = L::POSITION_COUNT;

    const RANGE: &'static str = if L::LEVELS == 4 { "PageRange" } else { "PageRange57" };

    const RANGE_INCLUSIVE: &'static str = if L::LEVELS == 4 { "PageRangeInclusive" } else { "PageRangeInclusive57" };

    fn place(&self) -> u64 {
        self.start_address.position()
    }

    fn at(start: u64) -> Self {
        PageIn::from_start_address_unchecked(VirtAddrIn::new_truncate(start))
    }
}

impl<S: PageSize> Page<S> {
    /// Returns the pages from `start` up to but excluding `end`. The range continues after the gap in the middle of the address
    /// space, and is empty unless `start` lies before `end`.
    ///
    /// # Proved
    ///
    /// ```text
    /// ensures start { result.start ≡ start }
    /// ensures end { result.end ≡ end }
    /// ```
    pub fn range(start: Self, end: Self) -> PageRange<S> {
        PageRange { start, end }
    }
}

impl<S: PageSize, L: LevelCount> PageIn<S, L> {
    /// Returns the pages from `start` up to and including `end`. The range continues after the gap in the middle of the address
    /// space, and is empty if `start` lies after `end`.
    ///
    /// # Proved
    ///
    /// ```text
    /// ensures start { result.start ≡ start }
    /// ensures end { result.end ≡ end }
    /// ```
    pub fn range_inclusive(start: Self, end: Self) -> BlockRangeInclusive<Self> {
        BlockRangeInclusive { start, end }
    }
}

impl BlockRange<Page<Size2MiB>> {
    /// Returns the 4KiB pages that make up the pages of the range.
    ///
    /// # Proved
    ///
    /// ```text
    /// ensures start { result.start ≡ self.start }
    /// ensures end { result.end ≡ self.end }
    /// ```
    #[inline]
    pub fn as_4kib_page_range(self) -> PageRange<Size4KiB> {
        PageRange {
            start: Page::from_start_address_unchecked(self.start.start_address()),
            end: Page::from_start_address_unchecked(self.end.start_address()),
        }
    }
}
