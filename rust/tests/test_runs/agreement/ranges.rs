//! Ranges of pages, which the library maps, changes and unmaps as a whole, and the plain program page by page. A range is
//! told by the call on its first page and the number of its pages.

use super::chooser::Chooser;
use super::plain_call::{page_of, plain_of};
use super::twins::Twins;
use crate::call_rows::CallRow::{self, Giant, Large, Small};
use crate::call_rows::PageCallRow::{self, MapTo, MapToWithTableFlags, Unmap, UpdateFlags};
use crate::prelude::*;
use crate::test_reference::PlainCall;
use x86_64_paging::mappers::calls::{map_range, map_range_allowed, range_allowed, unmap_range, update_flags_range};
use x86_64_paging::structures::paging::mapper::{FrameSink, MapRangeErrorIn, MapToError, TableAccess};
use x86_64_paging::structures::paging::{Size1GiB, Size2MiB};
use x86_64_paging::{parent_flags, TablesIn};

/// The numbers of pages. A table has 512 entries.
const COUNTS: [u64; 8] = [3, 1, 9, 2, 600, 0, 3, 40];

/// The number of ranges for each number of free frames.
const RANGES: usize = 200;

/// What was done: the number of changed pages, or a digest of the frames of unmapped ones, and why a map stopped.
#[derive(Clone, Copy, Debug, PartialEq)]
struct Outcome {
    done: u64,
    stop: Option<Refusal>,
}

/// A digest of frames in their order.
#[derive(Clone, Copy)]
pub struct Digest {
    value: u64,
}

impl FrameSink for Digest {
    fn take<S: PageSize>(&mut self, frame: PhysFrame<S>) {
        self.value = self.value.wrapping_mul(31).wrapping_add(frame.start_address().as_u64());
    }
}

/// Returns the call on the page that lies this number of bytes behind that of a call.
fn moved(call: PageCallRow, by: u64) -> PageCallRow {
    match call {
        MapTo(page, frame, flags) => MapTo(page.wrapping_add(by), frame.wrapping_add(by), flags),
        MapToWithTableFlags(page, frame, flags, parent_flags) => {
            let (page, frame) = (page.wrapping_add(by), frame.wrapping_add(by));
            MapToWithTableFlags(page, frame, flags, parent_flags)
        }
        UpdateFlags(page, flags) => UpdateFlags(page.wrapping_add(by), flags),
        Unmap(page) => Unmap(page.wrapping_add(by)),
        other => other,
    }
}

/// Returns the call on page `number` of a range.
fn call_on(first: CallRow, number: u64) -> CallRow {
    match first {
        Small(call) => Small(moved(call, number * 0x1000)),
        Large(call) => Large(moved(call, number * 0x20_0000)),
        Giant(call) => Giant(moved(call, number * 0x4000_0000)),
        other => other,
    }
}

/// Returns why a map stopped.
fn stop_of<S: PageSize>(why: MapToError<S>) -> Refusal {
    match why {
        MapToError::FrameAllocationFailed => Refusal::FrameAllocationFailed,
        MapToError::ParentEntryHugePage => Refusal::ParentEntryHugePage,
        MapToError::PageAlreadyMapped(frame) => Refusal::PageAlreadyMapped(frame.start_address().as_u64()),
    }
}

/// Maps pages as a whole, or returns `None` if this isn't allowed.
fn map_pages<S: PageSize, L: LevelCount, M: TableAccess + TablesIn<L> + ?Sized>(
    mapper: &mut M,
    pool: &mut FramePool,
    pages: (PageIn<S, L>, u64),
    frame: PhysFrame<S>,
    flags: (PageTableFlags, PageTableFlags),
) -> Option<Outcome> {
    let ((page, count), (flags, parent_flags)) = (pages, flags);
    if !map_range_allowed(mapper, page, count, frame, flags, parent_flags) {
        return None;
    }
    match map_range(mapper, page, count, frame, flags, parent_flags, pool) {
        Ok(flush) => {
            flush.ignore();
            Some(Outcome { done: count, stop: None })
        }
        Err(error) => {
            let MapRangeErrorIn { mapped, why } = error;
            let done = mapped.count();
            mapped.ignore();
            Some(Outcome { done, stop: Some(stop_of(why)) })
        }
    }
}

/// Changes the entries of pages as a whole, or returns `None` if this isn't allowed, or isn't a call of ranges.
fn change_pages<S: PageSize, L: LevelCount, M: TableAccess + TablesIn<L> + ?Sized>(
    mapper: &mut M,
    pages: (PageIn<S, L>, u64),
    first: PageCallRow,
) -> Option<Outcome> {
    let (page, count) = pages;
    if !range_allowed(mapper, page, count) {
        return None;
    }
    match first {
        UpdateFlags(_, bits) => {
            let flags = flags_of(bits);
            if flags.has_address_bits() {
                return None;
            }
            let (done, flush) = update_flags_range(mapper, page, count, flags);
            flush.ignore();
            Some(Outcome { done, stop: None })
        }
        Unmap(_) => {
            let mut frames = Digest { value: 0 };
            unmap_range(mapper, page, count, &mut frames).ignore();
            Some(Outcome { done: frames.value, stop: None })
        }
        _ => None,
    }
}

/// Maps, changes or unmaps a range.
fn serve<S: PageSize, L: LevelCount, M: TableAccess + TablesIn<L> + ?Sized>(
    mapper: &mut M,
    pool: &mut FramePool,
    first: PageCallRow,
    count: u64,
) -> Option<Outcome> {
    let pages = (page_at::<S, L>(page_of(first)), count);
    match first {
        MapTo(_, frame, flags) => {
            let flags = (flags_of(flags), parent_flags(flags_of(flags)));
            map_pages(mapper, pool, pages, frame_at(frame), flags)
        }
        MapToWithTableFlags(_, frame, flags, parent_flags) => {
            let flags = (flags_of(flags), flags_of(parent_flags));
            map_pages(mapper, pool, pages, frame_at(frame), flags)
        }
        _ => change_pages(mapper, pages, first),
    }
}

/// Does this with the direct mapper.
fn serve_directly<L: LevelCount>(
    memory: &mut PhysMemory,
    pool: &mut FramePool,
    first: CallRow,
    count: u64,
    root: PhysFrame<Size4KiB>,
) -> Option<Outcome> {
    let mut mapper = MappedPageTableIn::<IdentityMapping, L>::new(memory, root, IdentityMapping);
    match first {
        Small(call) => serve::<Size4KiB, L, _>(&mut mapper, pool, call, count),
        Large(call) => serve::<Size2MiB, L, _>(&mut mapper, pool, call, count),
        Giant(call) => serve::<Size1GiB, L, _>(&mut mapper, pool, call, count),
        _ => None,
    }
}

/// Does this page by page with the plain program. A map stops at the first refusal.
fn serve_plainly(twins: &mut Twins, levels: usize, first: CallRow, count: u64) -> Outcome {
    let (mut pages, mut frames) = (0_u64, Digest { value: 0 });
    for number in 0..count {
        let call = plain_of(levels, call_on(first, number));
        match (twins.step(&call), &call) {
            (Answered(Done(frame)), PlainCall::Unmap { .. }) => frames.take(frame_at::<Size4KiB>(frame)),
            (Answered(Done(_)), _) => pages += 1,
            (Answered(Answer::Refused(why)), PlainCall::MapTo { .. } | PlainCall::MapToWithTableFlags { .. }) => {
                return Outcome { done: pages, stop: Some(why) };
            }
            (reply, _) => assert!(reply != PlainReply::NotAllowed),
        }
    }
    Outcome { done: pages.wrapping_add(frames.value), stop: None }
}

/// Changes ranges of a hierarchy with a number of free frames, and compares the outcomes, every word and the free
/// frames. Returns the number of maps that stopped after some pages.
fn check_ranges<L: LevelCount>(chooser: &mut Chooser, free: usize) -> usize {
    let (levels, root, mut stopped) = (L::LEVELS as usize, frame_at(ROOT), 0_usize);
    let mut twins = Twins::new(levels, false, free);
    for n in 0..RANGES {
        let (first, count) = (chooser.choice(), COUNTS[n % 8]);
        let Twins { memory, pool, .. } = &mut twins;
        assert!(fits::<L>(memory, root, pool));
        if let Some(found) = serve_directly::<L>(memory, pool, first, count, root) {
            let wanted = serve_plainly(&mut twins, levels, first, count);
            assert_equal_in((n, count), found, wanted);
            twins.compare();
            stopped += usize::from(found.done > 0 && found.stop.is_some());
        }
    }
    stopped
}

/// Does this for each number of free frames. Some maps have to stop after some pages.
fn check_levels<L: LevelCount>() {
    let (mut chooser, mut stopped) = (Chooser::new(L::LEVELS as usize), 0_usize);
    for free in 0..=7 {
        stopped += check_ranges::<L>(&mut chooser, free);
    }
    assert!(stopped > 0);
}

#[test]
fn ranges_agree_with_the_plain_program() {
    check_levels::<FourLevels>()
}

#[test]
fn ranges_of_five_levels_agree_with_the_plain_program() {
    check_levels::<FiveLevels>()
}
