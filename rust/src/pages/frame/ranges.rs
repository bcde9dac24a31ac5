//! Ranges of frames.

use crate::addresses::addr::PhysAddr;
use crate::pages::frame::PhysFrame;
use crate::pages::page::{PageSize, Size4KiB};
use crate::pages::range::{Block, BlockRange, BlockRangeInclusive};

/// The frames from `start` up to but excluding `end`.
pub type PhysFrameRange<S = Size4KiB> = BlockRange<PhysFrame<S>>;

/// The frames from `start` up to and including `end`.
pub type PhysFrameRangeInclusive<S = Size4KiB> = BlockRangeInclusive<PhysFrame<S>>;

impl<S: PageSize> Block for PhysFrame<S> {
    const SIZE: u64 = S::SIZE;

    const LIMIT: u64 = 0x10_0000_0000_0000;

    const RANGE: &'static str = "PhysFrameRange";

    const RANGE_INCLUSIVE: &'static str = "PhysFrameRangeInclusive";

    fn place(&self) -> u64 {
        self.start_address.as_u64()
    }

    fn at(start: u64) -> Self {
        PhysFrame::from_start_address_unchecked(PhysAddr::new_proved(start))
    }
}

impl<S: PageSize> PhysFrame<S> {
    /// Returns the frames from `start` up to but excluding `end`. The range is empty unless `start` lies before `end`.
    ///
    /// # Proved
    ///
    /// ```text
    /// ensures start { result.start ≡ start }
    /// ensures end { result.end ≡ end }
    /// ```
    pub fn range(start: Self, end: Self) -> PhysFrameRange<S> {
        PhysFrameRange { start, end }
    }

    /// Returns the frames from `start` up to and including `end`. The range is empty if `start` lies after `end`.
    ///
    /// # Proved
    ///
    /// ```text
    /// ensures start { result.start ≡ start }
    /// ensures end { result.end ≡ end }
    /// ```
    pub fn range_inclusive(start: Self, end: Self) -> PhysFrameRangeInclusive<S> {
        PhysFrameRangeInclusive { start, end }
    }
}
