//! Calls on an empty root, as tables: the replies, every word and free frame afterwards, and what is flushed. Here are
//! rows that `pagetab` can't show. Others are transcripts, in `tests/pagetab`.

use crate::more::MoreOfVec;
use x86_64_paging::support::Vec;
mod call_lists;
mod flushing;
mod hierarchies;
mod mappings;
mod single;

use crate::call_rows::{call_of, CallRow};
use crate::prelude::*;
use crate::replies::reply_to;
use single::answer_singly;

/// A word, after its frame and its index.
pub type Word = (u64, u16, u64);

/// A call, and its reply.
type Exchange = (CallRow, PlainReply);

/// What is flushed: a page, by its start and its size, or all pages.
type Flushed = Option<(u64, u64)>;

/// Calls on an empty root, with free frames whose words have all bits set, and their results.
struct Row<'a> {
    /// The numbers of the memory's places. A place is the index of a table in memory.
    places: &'a [u64],
    /// The free frames before the calls.
    free: &'a [u64],
    /// The frame of the root.
    root: u64,
    /// The calls, each with its reply.
    calls: &'a [Exchange],
    /// The words that aren't 0 afterwards, besides the root's entry for itself.
    words: &'a [Word],
    /// The frames whose words have all bits set afterwards.
    full: &'a [u64],
    /// The free frames afterwards.
    left: &'a [u64],
    /// What is flushed, in order.
    flushed: &'a [Flushed],
}

/// How calls are executed.
#[derive(Clone, Copy, Debug)]
enum By {
    /// As lists, with the mapper over the identity mapping.
    Identity,
    /// As lists, with the mapper over a reference to it.
    Reference,
    /// As lists, with the mapper of a memory at an offset.
    Offset,
    /// As lists, with the mapper that reaches tables through the root's entry for itself.
    Recursive,
    /// As lists whose flushes are recorded, with room for a number of them.
    Recorded(usize),
    /// By the methods of the mapper over the identity mapping, with such a recorder.
    Single(usize),
}

/// The root's entry for itself.
pub const SELF_ENTRY: u64 = 0x1003;

/// The index of this entry. No page of a row has it.
const RECURSIVE_INDEX: u16 = 510;

/// The offset of a memory.
const OFFSET: u64 = 0xffff_8000_0000_0000;

/// A memory, a pool and what was flushed.
struct State {
    memory: PhysMemory,
    pool: FramePool,
    recorder: FlushRecorder,
}

impl State {
    /// Creates an empty root in a row's memory, with the root's entry for itself if tables are reached through it,
    /// and a pool of the row's free frames.
    fn new(row: &Row<'_>, by: By) -> State {
        let mut memory = unwrap_some(PhysMemory::with_places(row.places).ok());
        for frame in row.free {
            fill(&mut memory, *frame);
        }
        let mut recorder = FlushRecorder::new();
        match by {
            By::Recursive => set_word(&mut memory, ROOT, RECURSIVE_INDEX, SELF_ENTRY),
            By::Recorded(room) | By::Single(room) => unwrap(recorder.reserve(room)),
            _ => (),
        }
        let last = row.places.last().copied().unwrap_or(0);
        let pool = pool_of(last.saturating_add(1), row.free);
        State { memory, pool, recorder }
    }
}

/// Returns the expected word at an index of a frame.
fn wanted_word(row: &Row<'_>, by: By, frame: u64, index: u16) -> u64 {
    if matches!(by, By::Recursive) && frame == ROOT && index == RECURSIVE_INDEX {
        return SELF_ENTRY;
    }
    if row.full.contains(&frame) {
        return u64::MAX;
    }
    for (at, i, word) in row.words {
        if *at == frame && *i == index {
            return *word;
        }
    }
    0
}

/// Compares every word of the table at a place, given as the frame with its number, with a row.
fn compare_table(memory: &PhysMemory, frame: u64, row: &Row<'_>, by: By, title: &str) {
    for index in 0..WORD_COUNT {
        let word = word_at(memory, frame, index);
        let wanted = wanted_word(row, by, frame, index);
        assert_equal_in((title, index, frame), word, wanted);
    }
}

/// Compares the free frames of a pool with these.
pub fn compare_pool(pool: &FramePool, frames: &[u64], title: &str) {
    assert_equal_in(title, pool.len(), frames.len());
    for (n, frame) in frames.iter().enumerate() {
        assert_equal_in((n, title), pool.frame_at(n), Some(frame_at(*frame)));
    }
}

/// Returns what an item flushes.
fn flushed_by(item: &FlushItem) -> Flushed {
    match item {
        FlushItem::Page { start, size } => Some((start.as_u64(), *size)),
        FlushItem::Page57 { start, size } => Some((start.as_u64(), *size)),
        FlushItem::All => None,
    }
}

/// Compares what was flushed.
fn compare_flushes(items: &[FlushItem], flushed: &[Flushed], title: &str) {
    assert_equal_in(title, items.len(), flushed.len());
    for (n, wanted) in flushed.iter().enumerate() {
        let found = items.get(n).map(flushed_by);
        assert_equal_in((n, title), found, Some(*wanted));
    }
}

/// Compares every word, the free frames and what was flushed with a row.
fn compare(state: &State, row: &Row<'_>, by: By, title: &str) {
    for place in row.places {
        let frame = place.saturating_mul(0x1000);
        compare_table(&state.memory, frame, row, by, title);
    }
    compare_pool(&state.pool, row.left, title);
    let flushed = match by {
        By::Recorded(_) | By::Single(_) => row.flushed,
        _ => &[],
    };
    compare_flushes(state.recorder.items(), flushed, title)
}

/// Returns the calls of exchanges.
fn calls_of(exchanges: &[Exchange]) -> Vec<Call> {
    let mut calls = Vec::new();
    for (call, _) in exchanges {
        unwrap(calls.push(unwrap_some(call_of(*call))));
    }
    calls
}

/// Appends the replies of exchanges.
fn add_replies(exchanges: &[Exchange], replies: &mut Vec<Reply>) {
    for (call, reply) in exchanges {
        let wanted = unwrap_some(reply_to::<FourLevels>(*call, *reply));
        unwrap(replies.push(wanted));
    }
}

/// Executes a list of calls with a mapper that reaches tables by their frames.
fn answer_directly((by, root): (By, u64), state: &mut State, calls: &[Call], replies: &mut Vec<Reply>) {
    let root = frame_at(root);
    let State { memory, pool, recorder } = state;
    assert!(fits::<FourLevels>(memory, root, pool));
    let answer = match by {
        By::Reference => run_over(memory, root, &IdentityMapping, pool, calls, replies),
        By::Offset => {
            let offset = VirtAddr::new_truncate(OFFSET);
            assert!(OffsetPageTable::offset_fits(memory, offset));
            run_at_offset(memory, root, offset, pool, calls, replies)
        }
        By::Recorded(_) => run_flushed_on(memory, root, pool, calls, replies, recorder),
        _ => run_over(memory, root, IdentityMapping, pool, calls, replies),
    };
    unwrap(answer)
}

/// Executes a list of calls with the recursive mapper.
fn answer_recursively(state: &mut State, calls: &[Call], replies: &mut Vec<Reply>) {
    let (root, index) = (frame_at(ROOT), PageTableIndex::new_truncate(RECURSIVE_INDEX));
    let State { memory, pool, .. } = state;
    assert!(fits_recursive::<FourLevels>(memory, root, index, pool));
    let ran = run_recursive_on(memory, root, index, pool, calls, replies);
    unwrap(ran)
}

/// Executes the calls of a row with a number, the first one in a list of its own, after an earlier reply, and compares
/// the results.
fn check((number, row): (usize, &Row<'_>), by: By, state: &mut State) {
    let title = unwrap(format_in!("row {number}, {by:?}"));
    let mut replies = unwrap(vec_in![Reply::Address(None)]);
    let (first, others) = row.calls.split_at(row.calls.len().min(1));
    for exchanges in [first, others] {
        let calls = calls_of(exchanges);
        match by {
            By::Single(_) => answer_singly(state, exchanges, &mut replies),
            By::Recursive => answer_recursively(state, &calls, &mut replies),
            _ => answer_directly((by, row.root), state, &calls, &mut replies),
        }
    }
    let mut wanted = unwrap(vec_in![Reply::Address(None)]);
    add_replies(row.calls, &mut wanted);
    assert_equal_in(title.as_str(), replies, wanted);
    compare(state, row, by, &title)
}

/// Does this for rows, each from an empty root on, in several ways.
fn check_rows(rows: &[Row<'_>], ways: &[By]) {
    for (number, row) in rows.iter().enumerate() {
        for by in ways {
            let mut state = State::new(row, *by);
            check((number, row), *by, &mut state);
        }
    }
}
