//! Allocators of frames, whose promises are unsafe code's to give.

use crate::pages::frame::PhysFrame;
use crate::pages::page::{PageSize, Size4KiB};
use crate::tables::frame_alloc;

/// An allocator of frames.
///
/// # Safety
///
/// Each frame that an allocator hands out is memory that nothing uses and that it doesn't hand out again: whoever asked for the frame
/// owns it, until it comes back.
pub unsafe trait FrameAllocator<S: PageSize> {
    /// Hands out a frame, or returns `None` if none is left.
    fn allocate_frame(&mut self) -> Option<PhysFrame<S>>;
}

/// Takes frames back.
pub trait FrameDeallocator<S: PageSize> {
    /// Takes a frame back.
    ///
    /// # Safety
    ///
    /// Nothing uses the frame any more: no page that code relies on shows it, and no entry names it as a table.
    unsafe fn deallocate_frame(&mut self, frame: PhysFrame<S>);
}

/// The frames of an allocator, for the proved code, which takes them and gives none back.
pub(super) struct Supply<'a, A: ?Sized>(pub &'a mut A);

impl<A: FrameAllocator<Size4KiB> + ?Sized> frame_alloc::FrameAllocator<Size4KiB> for Supply<'_, A> {
    // Few maps of pages make a table, so this stays out of the way of the others.
    #[cold]
    #[inline(never)]
    fn allocate_frame(&mut self) -> Option<PhysFrame> {
        self.0.allocate_frame()
    }
}

/// For `new_space`, which asks for a store and only takes from it.
impl<A: ?Sized> frame_alloc::FrameDeallocator<Size4KiB> for Supply<'_, A> {
    fn deallocate_frame(&mut self, _frame: PhysFrame) {
        unreachable!("a call that takes a frame gives none back");
    }
}

/// Where frames of tables go that the proved code has removed.
///
/// Only [`CleanUp`](super::structures::paging::mapper::CleanUp) and `give_up_space` of the mappers create it, whose callers promise what
/// its unsafe code needs.
pub(super) struct Removed<'a, D: ?Sized>(pub &'a mut D);

impl<D: FrameDeallocator<Size4KiB> + ?Sized> frame_alloc::FrameDeallocator<Size4KiB> for Removed<'_, D> {
    #[inline]
    fn deallocate_frame(&mut self, frame: PhysFrame) {
        // SAFETY: it is called for a table whose entry was the only one that named it and is unused now, or for a root that no
        // processor uses. That no processor has cached such a table is promised by the caller of a clean up or of `give_up_space`.
        unsafe { self.0.deallocate_frame(frame) }
    }
}

/// For `give_up_space`, which asks for a store and only puts a frame into it.
impl<D: ?Sized> frame_alloc::FrameAllocator<Size4KiB> for Removed<'_, D> {
    fn allocate_frame(&mut self) -> Option<PhysFrame> {
        None
    }
}
