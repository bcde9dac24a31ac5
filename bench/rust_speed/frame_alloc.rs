//! The traits of allocators of the crate `x86_64`, for a folder that lacks their file.

use super::{PageSize, PhysFrame};

pub unsafe trait FrameAllocator<S: PageSize> {
    fn allocate_frame(&mut self) -> Option<PhysFrame<S>>;
}

pub trait FrameDeallocator<S: PageSize> {
    unsafe fn deallocate_frame(&mut self, frame: PhysFrame<S>);
}
