//! Calls on one of several address spaces, whose roots have the same entries at some indices.

use crate::addresses::index::PageTableIndex;
use crate::addresses::level_count::LevelCount;
use crate::bitflags::Flags;
use crate::call_values::{CallIn, LevelFiveFlags, ReplyIn, SizeCallIn};
use crate::mappers::calls::TableAccess;
use crate::pages::frame::PhysFrame;
use crate::pages::page::{PageIn, PageSize, Size4KiB};
use crate::pages::range::BlockRangeInclusive;
use crate::runs::run_call;
use crate::spaces::SharedIndices;
use crate::tables::frame_alloc::FrameStore;
use crate::tables::page_table::PageTableFlags;
use crate::tables::page_tables::{parent_flags, TablesIn};

/// Why a call on one of several address spaces isn't made: it might change an entry of the root that the others share.
#[derive(Clone, Copy, Debug, PartialEq)]
pub struct SharedEntry;

/// Executes one call on one of several address spaces, as [`run_call`](crate::run_call) does, unless it might change an entry
/// of the root that the others share. Also named `run_call_in_space_57`, for five levels.
///
/// If these address spaces fit together before ([`spaces_fit`](crate::spaces_fit)), they do so afterwards, whatever the call
/// is: so the next call may be on any of them.
///
/// Requires that the hierarchy is valid, and that the frame store fits it, as `run_call` does.
///
/// # Errors
///
/// `SharedEntry` if [`keeps_shared_entries`] returns false. Then nothing changes.
///
/// # Proved
///
/// ```text
/// requires { StoreFits (M.hierarchy mapper.old) (store_of F.FrameStore frames.old) }
/// ensures step { IfOk result (λ reply. Stepped (M.hierarchy mapper.old) (store_of F.FrameStore frames.old) (to_call L.LEVELS P5.bits call) reply (M.hierarchy mapper.new) (F.supply frames.new)) }
/// ensures free { OnOk result (LeavesFree (M.hierarchy mapper.old) (store_of F.FrameStore frames.old) (to_call L.LEVELS P5.bits call) (M.hierarchy mapper.new) (F.supply frames.new)) }
/// ensures refused { OnErr result ( (KeepsShared (M.hierarchy mapper.old) (indices_of shared) (to_call L.LEVELS P5.bits call) → ⊥) × (mapper.new ≡ mapper.old) × (frames.new ≡ frames.old)) }
/// ensures spaces { KeepsSpaces (indices_of shared) (M.hierarchy mapper.old) (store_of F.FrameStore frames.old) (M.hierarchy mapper.new) (F.supply frames.new) }
/// ensures keeps { Keeps (M.hierarchy mapper.old) (store_of F.FrameStore frames.old) (M.hierarchy mapper.new) (store_of F.FrameStore frames.new) }
/// ```
pub fn run_call_in_space<L: LevelCount, P5: LevelFiveFlags<L>, M: TableAccess + TablesIn<L> + ?Sized, F: FrameStore + ?Sized>(
    mapper: &mut M,
    frames: &mut F,
    shared: SharedIndices,
    call: CallIn<L, P5>,
) -> Result<ReplyIn<L>, SharedEntry> {
    if !keeps_shared_entries(mapper, &call, shared) {
        return Err(SharedEntry);
    }
    Ok(run_call(mapper, frames, call))
}

/// Returns true if a call on one of several address spaces leaves all entries of its root that the others share. Also named
/// `keeps_shared_entries_57`, for five levels.
///
/// It returns false for three kinds of calls: a map below such an entry, if the entry lacks some of the parent flags; a change to
/// the flags of such an entry; a clean up of a range with pages below such an entry, even if this frees no table. Other calls
/// change no such entry.
///
/// Requires that the hierarchy is valid.
///
/// # Proved
///
/// ```text
/// requires { Valid (M.hierarchy mapper.now) }
/// ensures { IsTrue result ↔ KeepsShared (M.hierarchy mapper.now) (indices_of shared) (to_call L.LEVELS P5.bits call.now) }
/// ```
pub fn keeps_shared_entries<L: LevelCount, P5: LevelFiveFlags<L>, M: TableAccess + TablesIn<L> + ?Sized>(
    mapper: &M,
    call: &CallIn<L, P5>,
    shared: SharedIndices,
) -> bool {
    match call {
        CallIn::Of4KiB(call) => page_keeps(mapper, call, shared),
        CallIn::Of2MiB(call) => page_keeps(mapper, call, shared),
        CallIn::Of1GiB(call) => page_keeps(mapper, call, shared),
        CallIn::Translate(_) | CallIn::TranslateAddr(_) => true,
        CallIn::CleanUp => are_unshared(shared, PageTableIndex::new_proved(0), PageTableIndex::new_proved(511)),
        CallIn::CleanUpRange(range) => range_keeps(*range, shared),
    }
}

/// Returns true if a call on a page leaves all entries of the root that are shared.
fn page_keeps<S: PageSize, L: LevelCount, P5: LevelFiveFlags<L>, M: TableAccess + TablesIn<L> + ?Sized>(
    mapper: &M,
    call: &SizeCallIn<S, L, P5>,
    shared: SharedIndices,
) -> bool {
    match call {
        SizeCallIn::MapTo { page, flags, .. } => has_flags(mapper, page.table_index(L::LEVELS), parent_flags(*flags), shared),
        SizeCallIn::MapToWithTableFlags { page, parent_flags, .. } => {
            has_flags(mapper, page.table_index(L::LEVELS), *parent_flags, shared)
        }
        SizeCallIn::IdentityMap { frame, flags } => has_flags(mapper, index_of::<S, L>(*frame), parent_flags(*flags), shared),
        SizeCallIn::SetFlagsP5 { page, .. } => is_below_root(*page, 5, shared),
        SizeCallIn::SetFlagsP4 { page, .. } => is_below_root(*page, 4, shared),
        SizeCallIn::SetFlagsP3 { page, .. } => is_below_root(*page, 3, shared),
        SizeCallIn::SetFlagsP2 { page, .. } => is_below_root(*page, 2, shared),
        SizeCallIn::Unmap { .. } | SizeCallIn::UpdateFlags { .. } | SizeCallIn::TranslatePage { .. } => true,
    }
}

/// Returns the index of the highest level at a frame's own address.
fn index_of<S: PageSize, L: LevelCount>(frame: PhysFrame<S>) -> PageTableIndex {
    let address = frame.start_address().as_u64();
    PageTableIndex::new_proved(((address >> (9 * L::LEVELS + 3)) % 512) as u16)
}

/// Returns true if the root's entry at an index has these flags, or isn't shared.
fn has_flags<M: TableAccess + ?Sized>(mapper: &M, index: PageTableIndex, flags: PageTableFlags, shared: SharedIndices) -> bool {
    if !shared.contains(usize::from(index)) {
        return true;
    }
    let word = root_word(mapper, index);
    word | flags.bits() == word
}

/// Returns the word of the root at an index, or 0 at the recursive index.
fn root_word<M: TableAccess + ?Sized>(mapper: &M, index: PageTableIndex) -> u64 {
    if mapper.recursive_index() == Some(index) {
        return 0;
    }
    mapper.table(&[], mapper.root())[usize::from(index)].word()
}

/// Returns true if the entry of a level on a page's path isn't one of the root that is shared.
fn is_below_root<S: PageSize, L: LevelCount>(page: PageIn<S, L>, level: u64, shared: SharedIndices) -> bool {
    level < L::LEVELS || !shared.contains(usize::from(page.table_index(L::LEVELS)))
}

/// Returns true if a clean up of a range of pages leaves all entries of the root that are shared.
fn range_keeps<L: LevelCount>(range: BlockRangeInclusive<PageIn<Size4KiB, L>>, shared: SharedIndices) -> bool {
    if range.end < range.start {
        return true;
    }
    let first = range.start.table_index(L::LEVELS);
    let last = range.end.table_index(L::LEVELS);
    are_unshared(shared, first, last)
}

/// Returns true if no index from the first to the last one is shared.
#[inline]
fn are_unshared(shared: SharedIndices, first: PageTableIndex, last: PageTableIndex) -> bool {
    let (first, last) = (u16::from(first), u16::from(last));
    (shared.to <= shared.from) | (shared.to <= first) | (last < shared.from) | (last < first)
}
