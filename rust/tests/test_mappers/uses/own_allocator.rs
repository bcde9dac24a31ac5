//! A frame allocator over a queue.
use x86_64_paging::structures::paging::{FrameAllocator, PhysFrame, Size4KiB};
use x86_64_paging::support::VecDeque;
use x86_64_paging::FrameKeeper;

/// A queue of free frames.
pub struct Queue {
    frames: VecDeque<PhysFrame<Size4KiB>>,
}

impl FrameAllocator<Size4KiB> for Queue {
    fn allocate_frame(&mut self) -> Option<PhysFrame<Size4KiB>> {
        self.frames.pop_front()
    }
}
