//! Loads of segments.

use crate::loader::pages::Stopped;
use crate::loader::parts::{map_part, pages_before_large};
use crate::loader::segment::{LoadError, Segment};
use crate::page_after;
use crate::structures::paging::mapper::MapperAllSizes;
use crate::structures::paging::{FrameAllocator, Size2MiB, Size4KiB};

/// Maps the pages of segments to their frames, one segment after another, with pages of 4KiB.
///
/// Calls [`map_to`](crate::structures::paging::Mapper::map_to) for each page in order, up to and including the first
/// page that is refused, and makes no other calls.
///
/// If it succeeds, each page is mapped with all of its flags. The page walk of each address of a segment arrives at
/// the first frame's start plus the address's offset in the segment. It has the right to write if and only if
/// `WRITABLE` is among the flags, and that of a user if and only if `USER_ACCESSIBLE` is. No two segments have an
/// address in common. `NO_EXECUTE` of an entry above, which was there before, forbids fetches whatever the flags say.
///
/// It succeeds if no page of a segment has a used entry or lies in a larger page, no two segments have an address in
/// common, and the allocator has as many frames as [`frames_needed`](crate::loader::frames_needed) returns.
///
/// Whether it succeeds or not, each page walk that arrived before still arrives at its address, with no right lost.
/// The hierarchy is valid, a pool that fitted it still fits it, and frames are conserved, as after a list of calls by
/// [`run`](crate::run).
///
/// The tokens of the maps are consumed without a flush, since the pages were not mapped before.
///
/// Requires that the hierarchy is valid, that the allocator's frames are as in a pool that fits it, and that
/// [`segments_allowed`](crate::loader::segments_allowed) returns true.
///
/// # Errors
///
/// The segment, its first 4KiB page that was refused, and the reason. Either the page or a part of it was mapped
/// before, possibly by this load if segments overlap, or a table was missing and there was no frame for it. The
/// segments before, and the pages of this segment before the page, are mapped: page walks in them arrive where they
/// should, with no right missing.
///
/// # Panics
///
/// Panics, with debug assertions, if a condition doesn't hold. It is tested so:
///
/// ```text
/// debug_assert!(loader::segments_allowed(mapper, segments));
/// ```
///
/// # Proved
///
/// ```text
/// requires fits { SupplyFits (M.hierarchy mapper.old) (A.supply frames.old) }
/// requires allowed { All (IsAllowed (M.hierarchy mapper.old)) segments.now }
/// ensures { LoadsSegments small_pages (M.hierarchy mapper.old) (supply_of A.FrameAllocator frames.old) segments.now result (M.hierarchy mapper.new) (supply_of A.FrameAllocator frames.new) }
/// ```
pub fn load<M: MapperAllSizes, A: FrameAllocator<Size4KiB> + ?Sized>(
    mapper: &mut M,
    frames: &mut A,
    segments: &[Segment],
) -> Result<(), LoadError> {
    debug_assert!(crate::loader::segments_allowed(mapper, segments));
    load_each(mapper, frames, segments, Sizes::Small)
}

/// Maps the pages of segments as [`load`] does, but with pages of 2MiB if a page and its frame both start at a
/// multiple of 2MiB and enough of the segment is left.
///
/// Conditions and errors are those of [`load`], except that a page of 2MiB is also refused if its entry names a
/// table. A refused page of 2MiB is reported as the first 4KiB page in it. So it succeeds whenever [`load`] does, if
/// no page of 2MiB has such a table.
///
/// # Panics
///
/// Panics, with debug assertions, if a condition doesn't hold. It is tested so:
///
/// ```text
/// debug_assert!(loader::segments_allowed(mapper, segments));
/// ```
///
/// # Proved
///
/// ```text
/// requires fits { SupplyFits (M.hierarchy mapper.old) (A.supply frames.old) }
/// requires allowed { All (IsAllowed (M.hierarchy mapper.old)) segments.now }
/// ensures { LoadsSegments large_pages (M.hierarchy mapper.old) (supply_of A.FrameAllocator frames.old) segments.now result (M.hierarchy mapper.new) (supply_of A.FrameAllocator frames.new) }
/// ```
pub fn load_large<M: MapperAllSizes, A: FrameAllocator<Size4KiB> + ?Sized>(
    mapper: &mut M,
    frames: &mut A,
    segments: &[Segment],
) -> Result<(), LoadError> {
    debug_assert!(crate::loader::segments_allowed(mapper, segments));
    load_each(mapper, frames, segments, Sizes::Large)
}

/// The sizes of the pages with which a segment is mapped.
#[derive(Clone, Copy)]
enum Sizes {
    /// Pages of 4KiB alone.
    Small,
    /// Pages of 2MiB if they fit.
    Large,
}

/// Maps the pages of segments, one segment after another.
fn load_each<M: MapperAllSizes, A: FrameAllocator<Size4KiB> + ?Sized>(
    mapper: &mut M,
    frames: &mut A,
    segments: &[Segment],
    sizes: Sizes,
) -> Result<(), LoadError> {
    for (index, segment) in segments.iter().enumerate() {
        if let Err(stopped) = load_segment(mapper, frames, *segment, sizes) {
            return Err(LoadError {
                segment: index,
                page: page_after(segment.page, stopped.mapped),
                mapped: stopped.mapped,
                why: stopped.why,
            });
        }
    }
    Ok(())
}

/// Maps a segment.
fn load_segment<M: MapperAllSizes, A: FrameAllocator<Size4KiB> + ?Sized>(
    mapper: &mut M,
    frames: &mut A,
    segment: Segment,
    sizes: Sizes,
) -> Result<(), Stopped<Size4KiB>> {
    match sizes {
        Sizes::Small => load_small_pages(mapper, frames, &segment),
        Sizes::Large => load_large_pages(mapper, frames, &segment),
    }
}

/// Maps a segment with pages of 4KiB.
fn load_small_pages<M: MapperAllSizes, A: FrameAllocator<Size4KiB> + ?Sized>(
    mapper: &mut M,
    frames: &mut A,
    segment: &Segment,
) -> Result<(), Stopped<Size4KiB>> {
    map_part::<Size4KiB, M, A>(mapper, frames, segment, 0, segment.pages)
}

/// Maps a segment with pages of 2MiB if they fit, and with pages of 4KiB before and after them.
fn load_large_pages<M: MapperAllSizes, A: FrameAllocator<Size4KiB> + ?Sized>(
    mapper: &mut M,
    frames: &mut A,
    segment: &Segment,
) -> Result<(), Stopped<Size4KiB>> {
    let head = pages_before_large(segment);
    let large = (segment.pages - head) / 512;
    let tail = head + large * 512;
    map_part::<Size4KiB, M, A>(mapper, frames, segment, 0, head)?;
    map_part::<Size2MiB, M, A>(mapper, frames, segment, head, large)?;
    map_part::<Size4KiB, M, A>(mapper, frames, segment, tail, segment.pages - tail)?;
    Ok(())
}
