//! A guest whose memory is a vector of tables. Its owner executes a list of calls on it in place, and reads it again.

use crate::more::MoreOfVec;
use x86_64_paging::support::Vec;

use crate::beside::empty_tables;
use crate::prelude::*;
use crate::uses::run_in_space::run_on;

/// Executes calls on a slice of tables, without a copy. The pool fits the hierarchy again.
fn run_in_tables(
    tables: &mut [PageTable],
    root: Frame,
    pool: &mut FramePool,
    calls: &[Call],
    replies: &mut Vec<Reply>,
) -> Result<(), AllocError> {
    let mut memory = LentMemory::new(tables);
    run_on(&mut memory, IdentityMapping, root, pool, calls, replies)
}

/// Returns the table in a frame, or `None` if there is none.
fn table_in(tables: &[PageTable], frame: Frame) -> Option<&PageTable> {
    let start = frame.start_address().as_u64();
    tables.get((start / Size4KiB::SIZE) as usize)
}

/// Returns the word at an index of the table in a frame, or `None` if there is none.
fn word_in(tables: &[PageTable], frame: Frame, index: PageTableIndex) -> Option<u64> {
    match table_in(tables, frame) {
        Some(table) => Some(table[index].word()),
        None => None,
    }
}

/// Returns whether a pool fits the hierarchy of a guest, which is tested in place.
fn fits(tables: &mut [PageTable], root: Frame, pool: &FramePool) -> bool {
    let memory = LentMemory::new(tables);
    unwrap(pool_fits(&memory, &IdentityMapping, root, pool))
}

/// Executes calls with the root in frame 0x1000, and returns the replies.
fn serve(tables: &mut [PageTable], mut pool: FramePool, calls: &[Call]) -> Vec<Reply> {
    let (root, mut replies) = (frame(0x1000), Vec::new());
    assert!(fits(tables, root, &pool));
    let ran = run_in_tables(tables, root, &mut pool, calls, &mut replies);
    unwrap(ran);
    replies
}

#[test]
fn a_guest_is_mapped_and_read() {
    let mut tables = empty_tables();
    let pool = pool_of(2, PLACES);
    let replies = serve(&mut tables, pool, &[map(0x1000, 0x5000)]);
    let mapped = Reply::Of4KiB(PageReply::Map(Ok(page(0x1000))));
    assert_equal(replies.as_slice(), &[mapped]);
    let word = word_in(&tables, frame(0x1000), PageTableIndex::new(0));
    assert_equal(word, Some(0x2001));
}

/// Sets words of a guest.
fn set_in(tables: &mut [PageTable], words: &[Word]) {
    set_words(&mut LentMemory::new(tables), words);
}

/// Compares all words of a guest, of which only these aren't 0.
fn check_in(tables: &mut [PageTable], words: &[Word]) {
    check_words(&LentMemory::new(tables), words)
}

#[test]
fn pages_of_a_guest_are_unmapped_once() {
    let mut tables = empty_tables();
    set_in(&mut tables, &WORDS[1..]);
    let (page, pool) = (page(0x1000), pool_of(0, 0));
    let calls = [Call::Of4KiB(SizeCall::Unmap { page }); 2];
    let replies = serve(&mut tables, pool, &calls);
    let wanted = [
        Reply::Of4KiB(PageReply::Unmap(Ok((frame(0x5000), page)))),
        Reply::Of4KiB(PageReply::Unmap(Err(UnmapError::PageNotMapped))),
    ];
    assert_equal(replies.as_slice(), &wanted);
    check_in(&mut tables, &WORDS[1..4])
}
