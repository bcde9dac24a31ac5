//! The calls of a kernel's mappers, unsafe where they are in the crate `x86_64`.

use super::frame_alloc::{FrameAllocator, FrameDeallocator};
use crate::addresses::addr::{PhysAddr, VirtAddrIn};
use crate::addresses::level_count::{FourLevels, LevelCount};
use crate::mappers::calls::{FrameSink, MapRangeErrorIn};
use crate::pages::frame::PhysFrame;
use crate::pages::page::{PageIn, PageSize, Size1GiB, Size2MiB, Size4KiB};
use crate::pages::range::BlockRangeInclusive;
use crate::tables::errors::{FlagUpdateError, MapToError, TranslateError, UnmapError};
use crate::tables::page_table::PageTableFlags;
use crate::tables::page_tables::parent_flags;
use crate::tables::tokens::{MapperFlushAll, MapperFlushIn, MapperFlushRangeIn};
use crate::tables::translation::TranslateResult;

/// Translates virtual addresses.
pub trait Translate<L: LevelCount = FourLevels> {
    /// Returns what an address is mapped to, as [the call on data](crate::structures::paging::Translate::translate) does.
    fn translate(&self, addr: VirtAddrIn<L>) -> TranslateResult;

    /// Returns the physical address that an address is mapped to, or `None` if it isn't mapped.
    #[inline]
    fn translate_addr(&self, addr: VirtAddrIn<L>) -> Option<PhysAddr> {
        match self.translate(addr) {
            TranslateResult::NotMapped | TranslateResult::InvalidFrameAddress(_) => None,
            TranslateResult::Mapped { frame, offset, .. } => Some(frame.start_address() + offset),
        }
    }
}

/// Maps and unmaps pages of one size, and changes the flags of the entries on their paths, in tables that a processor may be using.
///
/// Each call is [the one on data](crate::structures::paging::Mapper), whose documentation says what it does.
pub trait Mapper<S: PageSize, L: LevelCount = FourLevels> {
    /// Maps a page to a frame. The parents of its entry get `PRESENT`, `WRITABLE` and `USER_ACCESSIBLE`, as far as the flags have them.
    ///
    /// # Errors
    ///
    /// Those of [`map_to_with_table_flags`](Self::map_to_with_table_flags).
    ///
    /// # Safety
    ///
    /// The caller promises what [`map_to_with_table_flags`](Self::map_to_with_table_flags) asks for.
    #[inline]
    unsafe fn map_to<A>(
        &mut self,
        page: PageIn<S, L>,
        frame: PhysFrame<S>,
        flags: PageTableFlags,
        frame_allocator: &mut A,
    ) -> Result<MapperFlushIn<S, L>, MapToError<S>>
    where
        Self: Sized,
        A: FrameAllocator<Size4KiB> + ?Sized,
    {
        // SAFETY: the caller promises it.
        unsafe { self.map_to_with_table_flags(page, frame, flags, parent_flags(flags), frame_allocator) }
    }

    /// Maps a page to a frame, and adds the parent flags to the entries on the path to it. Each missing table gets a frame of the
    /// allocator.
    ///
    /// # Errors
    ///
    /// - `ParentEntryHugePage` if the page lies in a huge page.
    /// - `FrameAllocationFailed` if the allocator has too few frames.
    /// - `PageAlreadyMapped` if the page's entry is used.
    ///
    /// Tables and flags of parents that were made before stay.
    ///
    /// # Safety
    ///
    /// The new mapping breaks nothing that code relies on:
    ///
    /// - No two exclusive references lead to one place in memory. It is so if nothing else shows the frame, and nothing else owns it.
    /// - A value that code reads at the page is one of its type. No page that is in use gets other contents.
    /// - What is shared with other address spaces, by tables or by `GLOBAL`, holds in each of them.
    /// - The parent flags, which are added to entries that other pages use as well, give nobody a right that breaks this, and take none
    ///   that code needs, as `NO_EXECUTE` does. For that one everything has to be flushed, even if the map is refused.
    unsafe fn map_to_with_table_flags<A>(
        &mut self,
        page: PageIn<S, L>,
        frame: PhysFrame<S>,
        flags: PageTableFlags,
        parent_table_flags: PageTableFlags,
        frame_allocator: &mut A,
    ) -> Result<MapperFlushIn<S, L>, MapToError<S>>
    where
        Self: Sized,
        A: FrameAllocator<Size4KiB> + ?Sized;

    /// Unmaps a page, and returns its frame. No table is removed.
    ///
    /// It is a safe function, as in the crate `x86_64`: code that uses the page afterwards gets a page fault, or until the flush what was
    /// there before. Whoever gives the frame to others flushes first.
    ///
    /// # Errors
    ///
    /// `PageNotMapped`, `ParentEntryHugePage` or `InvalidFrameAddress` if no page of this size is mapped there.
    fn unmap(&mut self, page: PageIn<S, L>) -> Result<(PhysFrame<S>, MapperFlushIn<S, L>), UnmapError>;

    /// Gives the entry of a page these flags, in place of those that it has.
    ///
    /// # Errors
    ///
    /// `PageNotMapped` or `ParentEntryHugePage` if no page of this size is mapped there.
    ///
    /// # Safety
    ///
    /// With the new flags, the page serves all that use it: for example, it stays writable as long as code writes to it, and no other
    /// address space gets it by `GLOBAL` or a right to it that it must not have.
    unsafe fn update_flags(&mut self, page: PageIn<S, L>, flags: PageTableFlags) -> Result<MapperFlushIn<S, L>, FlagUpdateError>;

    /// Gives the entry of level four on the path to a page these flags.
    ///
    /// # Errors
    ///
    /// `PageNotMapped` or `ParentEntryHugePage` if the path doesn't lead to it, or if it isn't used.
    ///
    /// # Safety
    ///
    /// What [`update_flags`](Self::update_flags) asks for holds for all pages below the entry. As long as it names a table that is used
    /// later, by the processor or by this mapper, the flags leave it so.
    unsafe fn set_flags_p4_entry(&mut self, page: PageIn<S, L>, flags: PageTableFlags) -> Result<MapperFlushAll, FlagUpdateError>;

    /// Gives the entry of level three on the path to a page these flags.
    ///
    /// # Errors
    ///
    /// Those of [`set_flags_p4_entry`](Self::set_flags_p4_entry).
    ///
    /// # Safety
    ///
    /// As for [`set_flags_p4_entry`](Self::set_flags_p4_entry). An entry that names a table doesn't get `HUGE_PAGE`.
    unsafe fn set_flags_p3_entry(&mut self, page: PageIn<S, L>, flags: PageTableFlags) -> Result<MapperFlushAll, FlagUpdateError>;

    /// Gives the entry of level two on the path to a page these flags.
    ///
    /// # Errors
    ///
    /// Those of [`set_flags_p4_entry`](Self::set_flags_p4_entry).
    ///
    /// # Safety
    ///
    /// As for [`set_flags_p3_entry`](Self::set_flags_p3_entry).
    unsafe fn set_flags_p2_entry(&mut self, page: PageIn<S, L>, flags: PageTableFlags) -> Result<MapperFlushAll, FlagUpdateError>;

    /// Returns the frame that a page is mapped to.
    ///
    /// # Errors
    ///
    /// `PageNotMapped`, `ParentEntryHugePage` or `InvalidFrameAddress` if no page of this size is mapped there.
    fn translate_page(&self, page: PageIn<S, L>) -> Result<PhysFrame<S>, TranslateError>;

    /// Maps the page with the address of a frame to this frame.
    ///
    /// # Errors
    ///
    /// Those of [`map_to`](Self::map_to).
    ///
    /// # Safety
    ///
    /// The caller promises what [`map_to`](Self::map_to) asks for.
    #[inline]
    unsafe fn identity_map<A>(
        &mut self,
        frame: PhysFrame<S>,
        flags: PageTableFlags,
        frame_allocator: &mut A,
    ) -> Result<MapperFlushIn<S, L>, MapToError<S>>
    where
        Self: Sized,
        A: FrameAllocator<Size4KiB> + ?Sized,
    {
        let page = PageIn::containing_address(VirtAddrIn::new(frame.start_address().as_u64()));
        // SAFETY: the caller promises it.
        unsafe { self.map_to(page, frame, flags, frame_allocator) }
    }
}

/// Maps pages of each size.
pub trait MapperAllSizes<L: LevelCount = FourLevels>: Mapper<Size4KiB, L> + Mapper<Size2MiB, L> + Mapper<Size1GiB, L> {}

impl<L: LevelCount, M: Mapper<Size4KiB, L> + Mapper<Size2MiB, L> + Mapper<Size1GiB, L>> MapperAllSizes<L> for M {}

/// Changes many pages by one call. The crate `x86_64` doesn't have it.
///
/// Each call is [the one on data](crate::structures::paging::Mapper), whose documentation says what it does.
pub trait RangeMapper<S: PageSize, L: LevelCount = FourLevels>: Mapper<S, L> {
    /// Maps pages that follow each other to frames that follow each other.
    ///
    /// # Errors
    ///
    /// Why a page wasn't mapped, with those before it, which are.
    ///
    /// # Safety
    ///
    /// The caller promises what [`map_to_with_table_flags`](Mapper::map_to_with_table_flags) asks for, of each page. The pages don't go
    /// beyond the last one, nor the frames.
    unsafe fn map_range<A>(
        &mut self,
        page: PageIn<S, L>,
        count: u64,
        frame: PhysFrame<S>,
        flags: PageTableFlags,
        parent_table_flags: PageTableFlags,
        frame_allocator: &mut A,
    ) -> Result<MapperFlushRangeIn<S, L>, MapRangeErrorIn<S, L>>
    where
        A: FrameAllocator<Size4KiB> + ?Sized;

    /// Unmaps those of some pages that are mapped, and passes each frame on. The flush comes later, so a frame isn't used anew before.
    ///
    /// # Safety
    ///
    /// No code uses the pages any more, and they don't go beyond the last one.
    unsafe fn unmap_range(&mut self, page: PageIn<S, L>, count: u64, take: impl FnMut(PhysFrame<S>)) -> MapperFlushRangeIn<S, L>;

    /// Gives the entries of those of some pages that are mapped these flags. Returns how many these are.
    ///
    /// # Safety
    ///
    /// The caller promises what [`update_flags`](Mapper::update_flags) asks for, of each page. The pages don't go beyond the last one.
    unsafe fn update_flags_range(
        &mut self,
        page: PageIn<S, L>,
        count: u64,
        flags: PageTableFlags,
    ) -> (u64, MapperFlushRangeIn<S, L>);
}

/// Removes empty tables, and returns their frames to a deallocator.
pub trait CleanUp<L: LevelCount = FourLevels> {
    /// Removes the empty tables of the whole address space.
    ///
    /// # Safety
    ///
    /// The caller promises what [`clean_up_addr_range`](Self::clean_up_addr_range) asks for.
    unsafe fn clean_up<D>(&mut self, frame_deallocator: &mut D)
    where
        D: FrameDeallocator<Size4KiB>;

    /// Removes the empty tables of a range of pages.
    ///
    /// # Safety
    ///
    /// - Each table there belongs to this hierarchy alone, and its frame to the deallocator: no other root or entry leads to it, and no
    ///   code keeps a reference to it.
    /// - Each processor that uses the hierarchy flushes everything before the frames are used anew. Even if all pages below a table were
    ///   flushed when they were unmapped, a processor may have cached since then that the table is there.
    unsafe fn clean_up_addr_range<D>(&mut self, range: BlockRangeInclusive<PageIn<Size4KiB, L>>, frame_deallocator: &mut D)
    where
        D: FrameDeallocator<Size4KiB>;
}

/// Removes empty tables, but none that the root's entries name. The crate `x86_64` doesn't have it.
pub trait CleanUpBelowRoot<L: LevelCount = FourLevels> {
    /// Removes the empty tables of a range of pages, as [`clean_up_addr_range`](CleanUp::clean_up_addr_range) does, but keeps those that the
    /// root's entries name, empty or not. So the root's entries stay, and with them what address spaces share.
    ///
    /// # Safety
    ///
    /// - Each table there that the root doesn't name is named by one entry alone, which may be in a table that several roots share, and its
    ///   frame belongs to the deallocator. No code keeps a reference to it.
    /// - Each processor that uses one of these roots flushes everything before the frames are used anew.
    unsafe fn clean_up_below_root<D>(&mut self, range: BlockRangeInclusive<PageIn<Size4KiB, L>>, frame_deallocator: &mut D)
    where
        D: FrameDeallocator<Size4KiB>;
}

/// Passes the frames of unmapped pages on.
pub(super) struct Sink<S: PageSize, F: FnMut(PhysFrame<S>)>(pub F, pub core::marker::PhantomData<S>);

impl<S: PageSize, F: FnMut(PhysFrame<S>)> FrameSink for Sink<S, F> {
    #[inline]
    fn take<T: PageSize>(&mut self, frame: PhysFrame<T>) {
        // Pages of the size `S` are unmapped, so `T` is `S`.
        debug_assert_eq!(S::SIZE, T::SIZE);
        (self.0)(PhysFrame::containing_address(frame.start_address()));
    }
}

/// Implements the calls of a mapper by those of the proved code, over the tables in its field. The block is run where the mapper may reach
/// tables at pages that lead elsewhere now.
macro_rules! forward_calls {
    ([$($generics:tt)*] $Mapper:ty, $L:ty, $tables:ident, $moved:block) => {
        impl<$($generics)*> Translate<$L> for $Mapper {
            #[inline]
            fn translate(&self, addr: VirtAddrIn<$L>) -> TranslateResult {
                calls::translate(&self.$tables, addr)
            }

            #[inline]
            fn translate_addr(&self, addr: VirtAddrIn<$L>) -> Option<PhysAddr> {
                calls::translate_addr(&self.$tables, addr)
            }
        }

        impl<$($generics)*, S: PageSize> Mapper<S, $L> for $Mapper {
            #[inline]
            unsafe fn map_to_with_table_flags<A: FrameAllocator<Size4KiB> + ?Sized>(
                &mut self,
                page: PageIn<S, $L>,
                frame: PhysFrame<S>,
                flags: PageTableFlags,
                parent_table_flags: PageTableFlags,
                frame_allocator: &mut A,
            ) -> Result<MapperFlushIn<S, $L>, MapToError<S>> {
                let supply = &mut Supply(frame_allocator);
                calls::map_to_with_table_flags(&mut self.$tables, page, frame, flags, parent_table_flags, supply)
            }

            #[inline]
            fn unmap(&mut self, page: PageIn<S, $L>) -> Result<(PhysFrame<S>, MapperFlushIn<S, $L>), UnmapError> {
                let unmapped = calls::unmap(&mut self.$tables, page)?;
                if S::SIZE > Size4KiB::SIZE $moved
                Ok(unmapped)
            }

            #[inline]
            unsafe fn update_flags(
                &mut self,
                page: PageIn<S, $L>,
                flags: PageTableFlags,
            ) -> Result<MapperFlushIn<S, $L>, FlagUpdateError> {
                let updated = calls::update_flags(&mut self.$tables, page, flags)?;
                if S::SIZE > Size4KiB::SIZE $moved
                Ok(updated)
            }

            #[inline]
            unsafe fn set_flags_p4_entry(
                &mut self,
                page: PageIn<S, $L>,
                flags: PageTableFlags,
            ) -> Result<MapperFlushAll, FlagUpdateError> {
                calls::set_table_flags(&mut self.$tables, page, 4, flags)
            }

            #[inline]
            unsafe fn set_flags_p3_entry(
                &mut self,
                page: PageIn<S, $L>,
                flags: PageTableFlags,
            ) -> Result<MapperFlushAll, FlagUpdateError> {
                calls::set_table_flags(&mut self.$tables, page, 3, flags)
            }

            #[inline]
            unsafe fn set_flags_p2_entry(
                &mut self,
                page: PageIn<S, $L>,
                flags: PageTableFlags,
            ) -> Result<MapperFlushAll, FlagUpdateError> {
                calls::set_table_flags(&mut self.$tables, page, 2, flags)
            }

            #[inline]
            fn translate_page(&self, page: PageIn<S, $L>) -> Result<PhysFrame<S>, TranslateError> {
                calls::translate_page(&self.$tables, page)
            }
        }

        impl<$($generics)*, S: PageSize> RangeMapper<S, $L> for $Mapper {
            #[inline]
            unsafe fn map_range<A: FrameAllocator<Size4KiB> + ?Sized>(
                &mut self,
                page: PageIn<S, $L>,
                count: u64,
                frame: PhysFrame<S>,
                flags: PageTableFlags,
                parent_table_flags: PageTableFlags,
                frame_allocator: &mut A,
            ) -> Result<MapperFlushRangeIn<S, $L>, MapRangeErrorIn<S, $L>> {
                let supply = &mut Supply(frame_allocator);
                calls::map_range(&mut self.$tables, page, count, frame, flags, parent_table_flags, supply)
            }

            #[inline]
            unsafe fn unmap_range(
                &mut self,
                page: PageIn<S, $L>,
                count: u64,
                take: impl FnMut(PhysFrame<S>),
            ) -> MapperFlushRangeIn<S, $L> {
                let unmapped = calls::unmap_range(&mut self.$tables, page, count, &mut Sink(take, PhantomData));
                if S::SIZE > Size4KiB::SIZE $moved
                unmapped
            }

            #[inline]
            unsafe fn update_flags_range(
                &mut self,
                page: PageIn<S, $L>,
                count: u64,
                flags: PageTableFlags,
            ) -> (u64, MapperFlushRangeIn<S, $L>) {
                let updated = calls::update_flags_range(&mut self.$tables, page, count, flags);
                if S::SIZE > Size4KiB::SIZE $moved
                updated
            }
        }

        impl<$($generics)*> CleanUp<$L> for $Mapper {
            unsafe fn clean_up<D: FrameDeallocator<Size4KiB>>(&mut self, frame_deallocator: &mut D) {
                calls::clean_up::<$L, _, _>(&mut self.$tables, &mut Removed(frame_deallocator));
                $moved
            }

            unsafe fn clean_up_addr_range<D: FrameDeallocator<Size4KiB>>(
                &mut self,
                range: BlockRangeInclusive<PageIn<Size4KiB, $L>>,
                frame_deallocator: &mut D,
            ) {
                calls::clean_up_range(&mut self.$tables, range, &mut Removed(frame_deallocator));
                $moved
            }
        }

        impl<$($generics)*> CleanUpBelowRoot<$L> for $Mapper {
            unsafe fn clean_up_below_root<D: FrameDeallocator<Size4KiB>>(
                &mut self,
                range: BlockRangeInclusive<PageIn<Size4KiB, $L>>,
                frame_deallocator: &mut D,
            ) {
                calls::clean_up_below_root(&mut self.$tables, range, &mut Removed(frame_deallocator));
                $moved
            }
        }
    };
}
pub(super) use forward_calls;
