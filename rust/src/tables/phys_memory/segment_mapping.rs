//! A mapping of frames by segments, for a memory with holes.

use super::frame_segment::FrameSegment;
use super::{FramePlace, PageTableFrameMapping};
use crate::pages::frame::PhysFrame;
use crate::pages::page::Size4KiB;

/// The reason why segments don't map frames.
#[derive(Clone, Copy, Debug, PartialEq, Eq)]
pub struct SegmentRefusal {
    /// The index of the first segment that may not follow those before it: the sum `first` + `count` or `place` + `count`
    /// isn't below 2^64, or one of those before has a frame that isn't before its own, or one of its places.
    pub segment: usize,
}

/// The mapping of the frames of segments, for a physical memory with holes whose tables are in one array. Frames that no
/// segment has aren't covered.
///
/// A frame of the first segment is found at once, others by binary search.
#[derive(Clone, Copy, Debug)]
pub struct SegmentMapping<'a> {
    front: FrameSegment,
    segments: &'a [FrameSegment],
}

impl<'a> SegmentMapping<'a> {
    /// Creates the mapping of the frames of segments, if the segments are in order: each ends before the next begins, no
    /// two have a place in common, and the sums `first` + `count` and `place` + `count` are below 2^64.
    ///
    /// The time is that of a comparison of any two segments.
    ///
    /// # Errors
    ///
    /// The first segment that is wrong.
    ///
    /// # Proved
    ///
    /// ```text
    /// ensures places { IfOk result (λ mapping. ⟦<Self as PageTableFrameMapping>⟧.places mapping ≡ segment_places segments.now) }
    /// ensures in_order { OnOk result (are_in_order segments.now ≡ true) }
    /// ensures not_in_order { OnErr result (are_in_order segments.now ≡ false) }
    /// ensures wrong { IfErr result (λ refusal. IsFirstWrong segments.now refusal.segment) }
    /// ```
    #[inline]
    pub fn new(segments: &'a [FrameSegment]) -> Result<SegmentMapping<'a>, SegmentRefusal> {
        match first_wrong(segments) {
            Some(segment) => Err(SegmentRefusal { segment }),
            None => Ok(SegmentMapping::new_unchecked(segments)),
        }
    }

    /// Creates the mapping of the frames of segments in constant time.
    ///
    /// Requires that the segments are in order, as [`new`](Self::new) tests.
    ///
    /// # Panics
    ///
    /// Panics, with debug assertions, if a condition doesn't hold. It is tested so:
    ///
    /// ```text
    /// debug_assert!(first_wrong(segments).is_none());
    /// ```
    ///
    /// # Proved
    ///
    /// ```text
    /// requires { are_in_order segments.now ≡ true }
    /// ensures { ⟦<Self as PageTableFrameMapping>⟧.places result ≡ segment_places segments.now }
    /// ```
    #[inline]
    pub fn new_unchecked(segments: &'a [FrameSegment]) -> SegmentMapping<'a> {
        debug_assert!(first_wrong(segments).is_none());
        let front = match segments.first() {
            Some(segment) => *segment,
            None => FrameSegment::EMPTY,
        };
        SegmentMapping { front, segments }
    }

    /// Returns the place of the frame with a number, or `None` if no segment has it.
    #[inline]
    fn place_of(&self, number: u64) -> Option<u64> {
        let distance = number.wrapping_sub(self.front.first);
        if distance < self.front.count {
            Some(self.front.place + distance)
        } else {
            search(self.segments, number)
        }
    }
}

/// Returns the index of the first segment that may not follow those before it, or `None` if all segments are in order.
#[inline]
fn first_wrong(segments: &[FrameSegment]) -> Option<usize> {
    for (index, segment) in segments.iter().enumerate() {
        if !segment.may_follow(&segments[..index]) {
            return Some(index);
        }
    }
    None
}

/// Returns the place of the frame with a number, or `None` if none of the segments has it. This is separate, so that callers
/// contain only the code for frames of the first segment.
#[cold]
#[inline(never)]
fn search(segments: &[FrameSegment], number: u64) -> Option<u64> {
    let count = segments.partition_point(|segment| segment.first <= number);
    if count == 0 {
        return None;
    }
    segments[count - 1].place_of(number)
}

impl<'a> PageTableFrameMapping for SegmentMapping<'a> {
    #[inline]
    fn frame_to_pointer(&self, frame: PhysFrame<Size4KiB>) -> FramePlace {
        FramePlace::new(self.place_of(frame.pfn()).unwrap())
    }

    #[inline]
    fn covers(&self, frame: PhysFrame<Size4KiB>) -> bool {
        let _start = frame.start_address();
        self.place_of(frame.pfn()).is_some()
    }
}
