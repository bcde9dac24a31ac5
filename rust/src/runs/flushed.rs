//! Lists of calls whose TLB flushes are recorded.

use crate::support::Vec;

use super::serve_all;
use crate::addresses::level_count::LevelCount;
use crate::call_values::{CallIn, LevelFiveFlags, ReplyIn};
use crate::mappers::calls::TableAccess;
use crate::support::AllocError;
use crate::tables::frame_alloc::FrameStore;
use crate::tables::page_tables::TablesIn;
use crate::tables::tokens::FlushRecorder;
use core::cmp::max;

/// Executes calls in order as [`run`](super::run) does, and flushes the token of each accepted call into a recorder,
/// in order. Also named `run_flushed_57`, for five levels.
///
/// Room for one reply and one item per call is reserved first, so that no token comes back.
///
/// Requires the conditions of [`run`](super::run).
///
/// # Errors
///
/// `AllocError` if memory allocation fails for the replies or for the items. Then nothing changes.
///
/// # Proved
///
/// ```text
/// requires { StoreFits (M.hierarchy mapper.old) (store_of F.FrameStore frames.old) }
/// ensures ran { OnOk result (Ran (to_call L.LEVELS P5.bits) (M.hierarchy mapper.old) (store_of F.FrameStore frames.old) calls.now replies.old.items replies.new.items (M.hierarchy mapper.new) (F.supply frames.new)) }
/// ensures flushed { OnOk result ( Flushed (to_call L.LEVELS P5.bits) (M.hierarchy mapper.old) (store_of F.FrameStore frames.old) calls.now replies.old.items replies.new.items recorder.old.items recorder.new.items (M.hierarchy mapper.new)) }
/// ensures unchanged { OnErr result ((replies.new ≡ replies.old) × (recorder.new ≡ recorder.old) × (mapper.new ≡ mapper.old) × (frames.new ≡ frames.old)) }
/// ensures needs_room { OnErr result ((vec_capacity replies.old < vec_len replies.old + length calls.now) ⊎ (recorder.old.room < length calls.now)) }
/// ensures keeps { Keeps (M.hierarchy mapper.old) (store_of F.FrameStore frames.old) (M.hierarchy mapper.new) (store_of F.FrameStore frames.new) }
/// ```
pub fn run_flushed<L: LevelCount, P5: LevelFiveFlags<L>, M: TableAccess + TablesIn<L> + ?Sized, F: FrameStore + ?Sized>(
    mapper: &mut M,
    frames: &mut F,
    calls: &[CallIn<L, P5>],
    replies: &mut Vec<ReplyIn<L>>,
    recorder: &mut FlushRecorder,
) -> Result<(), AllocError> {
    make_room(replies, recorder, calls.len())?;
    serve_all(mapper, frames, calls, replies, recorder);
    Ok(())
}

/// Makes room for a number of further replies and as many items.
///
/// # Errors
///
/// `AllocError` if memory allocation fails for the replies or for the items. Then nothing changes: replies that lack room
/// move to a larger list only once the recorder has room.
fn make_room<L: LevelCount>(replies: &mut Vec<ReplyIn<L>>, recorder: &mut FlushRecorder, count: usize) -> Result<(), AllocError> {
    if count <= replies.capacity() - replies.len() {
        return recorder.reserve(count);
    }
    let mut larger = larger(replies, count)?;
    recorder.reserve(count)?;
    if larger.append(replies).is_err() {
        unreachable!()
    }
    *replies = larger;
    Ok(())
}

/// Returns an empty list with room for the given replies and for a number of further ones. It has room for at least twice
/// as many as are given, so that many short lists of calls rarely move the replies.
///
/// # Errors
///
/// `AllocError` if memory allocation fails.
fn larger<L: LevelCount>(replies: &Vec<ReplyIn<L>>, count: usize) -> Result<Vec<ReplyIn<L>>, AllocError> {
    match replies.len().checked_add(max(replies.len(), count)) {
        Some(room) => Vec::with_capacity(room),
        None => Err(AllocError),
    }
}
