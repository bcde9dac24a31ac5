//! Tokens for changes to page tables that the TLB may not reflect yet.
//!
//! Intel SDM vol. 3A, "Invalidation of TLBs and Paging-Structure Caches".

use super::recorder::{FlushItem, FlushRecorder};
use crate::addresses::level_count::{FiveLevels, FourLevels, LevelCount};
use crate::pages::page::{PageIn, PageSize, Size4KiB};
use crate::support::AllocError;
use core::fmt::Debug;

/// A token for a change to the mapping of a page that the TLB may not reflect yet.
///
/// It is consumed by [`record`](Self::record), [`ignore`](Self::ignore), or a flush by the feature `instructions`. The compiler warns if it isn't used.
#[must_use]
pub struct MapperFlushIn<S: PageSize, L: LevelCount> {
    page: PageIn<S, L>,
}

/// The token for a page with four levels of page tables.
pub type MapperFlush<S = Size4KiB> = MapperFlushIn<S, FourLevels>;

/// The token for a page with five levels of page tables.
pub type MapperFlush57<S = Size4KiB> = MapperFlushIn<S, FiveLevels>;

impl<S: PageSize, L: LevelCount> MapperFlushIn<S, L> {
    /// Creates a token for a page.
    ///
    /// # Proved
    ///
    /// ```text
    /// ensures { result ≡ page }
    /// ```
    pub fn new(page: PageIn<S, L>) -> Self {
        MapperFlushIn { page }
    }

    /// Returns the page.
    ///
    /// # Proved
    ///
    /// ```text
    /// ensures { result ≡ self.now }
    /// ```
    pub fn page(&self) -> PageIn<S, L> {
        self.page
    }

    /// Consumes the token and records a flush of its page, by the page's start address and size.
    ///
    /// If the recorder has room, this succeeds, allocates no memory, and lowers the room by one.
    ///
    /// # Errors
    ///
    /// The token itself if memory allocation fails. Then the recorder is unchanged.
    ///
    /// # Proved
    ///
    /// ```text
    /// ensures items { OnOk result (recorder.new.items ≡ recorder.old.items ++ page_item L.LEVELS self S.SIZE ∷ []) }
    /// ensures room { OnOk result (recorder.new.room ≡ recorder.old.room - 1) }
    /// ensures succeeds { 0 < recorder.old.room → IsOk result }
    /// ensures token { IfErr result (λ token. token ≡ self) }
    /// ensures unchanged { OnErr result (recorder.new ≡ recorder.old) }
    /// ```
    pub fn record(self, recorder: &mut FlushRecorder) -> Result<(), Self> {
        let item = FlushItem::of_page(self.page.start_address(), S::SIZE);
        if recorder.record(item).is_err() {
            return Err(self);
        }
        self.ignore();
        Ok(())
    }

    /// Consumes the token without a flush. The TLB may keep the mapping that the page had before.
    pub fn ignore(self) {
        let MapperFlushIn { page: _ } = self;
    }
}

impl<S: PageSize, L: LevelCount> Debug for MapperFlushIn<S, L> {
    fn fmt(&self, f: &mut core::fmt::Formatter<'_>) -> core::fmt::Result {
        let (suffix, page) = (L::SUFFIX, self.page);
        write!(f, "MapperFlush{suffix} {{ page: {page:?} }}")
    }
}

/// The number of pages up to which a flush of a range of pages records one item per page. For more pages it records
/// one item, [`FlushItem::All`].
pub const MOST_PAGE_ITEMS: u64 = 32;

/// A token for changes to the mappings of a range of pages that the TLB may not reflect yet.
///
/// It is consumed by [`record`](Self::record), [`ignore`](Self::ignore), or a flush by the feature `instructions`. The compiler warns if it isn't used.
#[must_use]
pub struct MapperFlushRangeIn<S: PageSize, L: LevelCount> {
    page: PageIn<S, L>,
    count: u64,
}

/// The token for a range of pages with four levels of page tables.
pub type MapperFlushRange<S = Size4KiB> = MapperFlushRangeIn<S, FourLevels>;

/// The token for a range of pages with five levels of page tables.
pub type MapperFlushRange57<S = Size4KiB> = MapperFlushRangeIn<S, FiveLevels>;

impl<S: PageSize, L: LevelCount> MapperFlushRangeIn<S, L> {
    /// Creates a token for `count` pages, from a page on. The range continues after the gap in the middle of the address space.
    ///
    /// Requires that none of these pages lies past the end of the address space.
    ///
    /// # Panics
    ///
    /// Panics, with debug assertions, if a condition doesn't hold. It is tested so:
    ///
    /// ```text
    /// debug_assert!(count == 0 || PageIn::forward_checked(page, (count - 1) as usize).is_some());
    /// ```
    ///
    /// # Proved
    ///
    /// ```text
    /// requires { (k : ℕ) → k < count → page + k * S.SIZE < position_count L.LEVELS }
    /// ensures { result ≡ flush_range page count }
    /// ```
    pub fn new(page: PageIn<S, L>, count: u64) -> Self {
        debug_assert!(count == 0 || PageIn::forward_checked(page, (count - 1) as usize).is_some());
        MapperFlushRangeIn { page, count }
    }

    /// Returns the first page.
    ///
    /// # Proved
    ///
    /// ```text
    /// ensures { result ≡ self.now.page }
    /// ```
    pub fn page(&self) -> PageIn<S, L> {
        self.page
    }

    /// Returns the number of pages.
    ///
    /// # Proved
    ///
    /// ```text
    /// ensures { result ≡ self.now.count }
    /// ```
    pub fn count(&self) -> u64 {
        self.count
    }

    /// Consumes the token and records a flush of its pages: of each page by its start address and size, in order, if
    /// there are at most [`MOST_PAGE_ITEMS`], and of all mappings otherwise. Records nothing for a range of no pages.
    ///
    /// If the recorder has room for these items, this succeeds, allocates no memory, and lowers the room by at most
    /// their number.
    ///
    /// # Errors
    ///
    /// The token itself if memory allocation fails. Then the recorder is unchanged.
    ///
    /// # Proved
    ///
    /// ```text
    /// ensures items { OnOk result (recorder.new.items ≡ recorder.old.items ++ range_items L.LEVELS S.SIZE MOST_PAGE_ITEMS self) }
    /// ensures room { OnOk result (recorder.old.room ≤ recorder.new.room + length (range_items L.LEVELS S.SIZE MOST_PAGE_ITEMS self)) }
    /// ensures succeeds { length (range_items L.LEVELS S.SIZE MOST_PAGE_ITEMS self) ≤ recorder.old.room → IsOk result }
    /// ensures token { IfErr result (λ token. token ≡ self) }
    /// ensures unchanged { OnErr result (recorder.new ≡ recorder.old) }
    /// ```
    pub fn record(self, recorder: &mut FlushRecorder) -> Result<(), Self> {
        if record_pages(self.page, self.count, recorder).is_err() {
            return Err(self);
        }
        self.ignore();
        Ok(())
    }

    /// Consumes the token without a flush. The TLB may keep the mappings that the pages had before.
    pub fn ignore(self) {
        let MapperFlushRangeIn { page: _, count: _ } = self;
    }
}

impl<S: PageSize, L: LevelCount> Debug for MapperFlushRangeIn<S, L> {
    fn fmt(&self, f: &mut core::fmt::Formatter<'_>) -> core::fmt::Result {
        let (suffix, page, count) = (L::SUFFIX, self.page, self.count);
        write!(f, "MapperFlushRange{suffix} {{ page: {page:?}, count: {count} }}")
    }
}

/// A token for a change to a table entry, after which the TLB may hold stale mappings of any pages.
///
/// It is consumed by [`record`](Self::record), [`ignore`](Self::ignore), or a flush by the feature `instructions`. The compiler warns if it isn't used.
#[must_use]
#[derive(Debug)]
pub struct MapperFlushAll(());

impl MapperFlushAll {
    /// Creates a token.
    #[inline]
    pub fn new() -> Self {
        MapperFlushAll(())
    }

    /// Consumes the token and records a flush of all mappings.
    ///
    /// If the recorder has room, this succeeds, allocates no memory, and lowers the room by one.
    ///
    /// # Errors
    ///
    /// The token itself if memory allocation fails. Then the recorder is unchanged.
    ///
    /// # Proved
    ///
    /// ```text
    /// ensures items { OnOk result (recorder.new.items ≡ recorder.old.items ++ FlushItem.All ∷ []) }
    /// ensures room { OnOk result (recorder.new.room ≡ recorder.old.room - 1) }
    /// ensures succeeds { 0 < recorder.old.room → IsOk result }
    /// ensures token { IfErr result (λ token. token ≡ self) }
    /// ensures unchanged { OnErr result (recorder.new ≡ recorder.old) }
    /// ```
    #[inline]
    pub fn record(self, recorder: &mut FlushRecorder) -> Result<(), Self> {
        if recorder.record(FlushItem::All).is_err() {
            return Err(self);
        }
        self.ignore();
        Ok(())
    }

    /// Consumes the token without a flush. The TLB may keep stale mappings of any pages.
    #[inline]
    pub fn ignore(self) {
        let MapperFlushAll(_) = self;
    }
}

/// Records a flush of a number of pages, from a page on.
///
/// # Errors
///
/// `AllocError` if memory allocation fails. Then nothing changes.
fn record_pages<S: PageSize, L: LevelCount>(
    page: PageIn<S, L>,
    count: u64,
    recorder: &mut FlushRecorder,
) -> Result<(), AllocError> {
    if count > MOST_PAGE_ITEMS {
        return recorder.record(FlushItem::All);
    }
    recorder.reserve(count as usize)?;
    record_each(page, count, recorder);
    Ok(())
}

/// Records a flush of each of a number of pages, from a page on.
fn record_each<S: PageSize, L: LevelCount>(page: PageIn<S, L>, count: u64, recorder: &mut FlushRecorder) {
    for k in 0..count {
        let page = page_after(page, k);
        recorder.record_reserved(FlushItem::of_page(page.start_address(), S::SIZE));
    }
}

/// Returns the page `count` pages after a page. Steps continue after the gap in the middle of the address space.
///
/// Requires that the page doesn't lie past the end of the address space. Check this with [`PageIn::forward_checked`].
///
/// # Proved
///
/// ```text
/// requires { page + count * S.SIZE < position_count L.LEVELS }
/// ensures { result ≡ page + count * S.SIZE }
/// ```
pub fn page_after<S: PageSize, L: LevelCount>(page: PageIn<S, L>, count: u64) -> PageIn<S, L> {
    match PageIn::forward_checked(page, count as usize) {
        Some(page) => page,
        None => unreachable!(),
    }
}
