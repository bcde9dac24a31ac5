//! What has to be flushed after each kind of call and reply, without a recursive index and with one.
use crate::call_rows::call_of;
use crate::call_rows::CallRow::{self, CleanUp, CleanUpRange, Giant, Large, Small, Translate, TranslateAddr};
use crate::call_rows::PageCallRow::{IdentityMap, MapTo, MapToWithTableFlags, SetFlags, TranslatePage, Unmap, UpdateFlags};
use crate::prelude::*;
use crate::replies::reply_to;
use crate::test_reference::PlainReply::{Address, NotAllowed, Position};
use crate::test_reference::Translated;
use x86_64_paging::flushing::Flush::{self, Everything, Nothing, Tables};
use x86_64_paging::flushing::{flush_after, flush_after_change, loses};
use x86_64_paging::structures::paging::page_table::PageTableEntry;

/// What has to be flushed without a recursive index and with one.
type Flushes = (Flush, Flush);

const NONE: Flushes = (Nothing, Nothing);

const PAGE: Flushes = (Flush::Page, Everything);

const TABLES: Flushes = (Tables, Everything);

const ALL: Flushes = (Everything, Everything);

/// A call, replies to it, and what has to be flushed after each.
type Row = (CallRow, &'static [PlainReply], Flushes);

const DONE: PlainReply = Answered(Done(0x5000));

const FULL: PlainReply = Answered(Answer::Refused(Refusal::FrameAllocationFailed));

const HUGE: PlainReply = Answered(Answer::Refused(Refusal::ParentEntryHugePage));

const ABSENT: PlainReply = Answered(Answer::Refused(Refusal::PageNotMapped));

/// The replies to a map.
const EACH: [PlainReply; 3] = [DONE, FULL, NotAllowed];

const NOWHERE: PlainReply = Position(Translated::NotMapped);

/// `PRESENT`, `WRITABLE` and `NO_EXECUTE`.
const NX: u64 = 0x8000_0000_0000_0003;

/// Maps whose tables keep the right to execute, and lose it.
const KEEP: CallRow = Small(MapToWithTableFlags(0x1000, 0x5000, NX, 0x3));

const LOSE: CallRow = Small(MapToWithTableFlags(0x1000, 0x5000, 0x3, NX));

static ROWS: [Row; 17] = [
    (Small(MapTo(0x1000, 0x5000, NX)), &EACH, NONE),
    (Small(IdentityMap(0x5000, NX)), &EACH, NONE),
    (KEEP, &EACH, NONE),
    (LOSE, &[DONE, FULL], ALL),
    (LOSE, &[NotAllowed], NONE),
    (Small(Unmap(0x1000)), &[DONE], (Flush::Page, Flush::Page)),
    (Small(Unmap(0x1000)), &[ABSENT, NotAllowed], NONE),
    (Large(Unmap(0x20_0000)), &[DONE], PAGE),
    (Giant(UpdateFlags(GIANT, 0x3)), &[DONE], PAGE),
    (Giant(UpdateFlags(GIANT, 0x3)), &[HUGE, NotAllowed], NONE),
    (Small(SetFlags(2, 0x1000, 0x3)), &[DONE], ALL),
    (Small(SetFlags(2, 0x1000, 0x3)), &[ABSENT, NotAllowed], NONE),
    (CleanUpRange(0x1000, 0x1000), &[Cleaned], TABLES),
    (CleanUp, &[Cleaned], TABLES),
    (Translate(0x1000), &[NOWHERE], NONE),
    (TranslateAddr(0x1000), &[Address(None)], NONE),
    (Small(TranslatePage(0x1000)), &[DONE], NONE),
];

/// A page of 1GiB, and the first page of the upper half with five levels.
const GIANT: u64 = 0x4000_0000;

const UPPER: u64 = 0xff00_0000_0000_0000;

static ROWS_57: [Row; 4] = [
    (Large(SetFlags(5, UPPER, 0x3)), &[DONE], ALL),
    (Large(UpdateFlags(UPPER, 0x3)), &[DONE], PAGE),
    (Large(UpdateFlags(UPPER, 0x3)), &[NotAllowed], NONE),
    (CleanUp, &[Cleaned], TABLES),
];

/// Compares what has to be flushed after a call with a reply, also if the caller knows whether something was taken away.
fn check_flush<L: LevelCount, P5: LevelFiveFlags<L>>(call: &CallIn<L, P5>, reply: &ReplyIn<L>, (without, with): Flushes) {
    let index = Some(PageTableIndex::new_truncate(511));
    assert_equal(flush_after(call, reply, None), without);
    assert_equal(flush_after(call, reply, index), with);
    let changed = |loses| flush_after_change(call, reply, None, loses);
    assert_equal((changed(true), changed(false)), (without, Nothing));
}

/// Compares this for the calls and replies of rows.
fn check_flushes<L: LevelCount, P5: LevelFiveFlags<L>>(rows: &[Row]) {
    for (call_row, replies, wanted) in rows {
        for plain in *replies {
            let call = unwrap_some(call_of::<L, P5>(*call_row));
            let reply = unwrap_some(reply_to::<L>(*call_row, *plain));
            check_flush(&call, &reply, *wanted);
        }
    }
}

/// A word before a change and after it, and whether it loses something.
const CHANGES: [(u64, u64, bool); 22] = [
    (0x5003, 0x5003, false),
    (0x5001, 0x5007, false),
    (0x8000_0000_0000_5001, 0x5001, false),
    (0x5002, 0x5003, false),
    (0, 0x5003, false),
    (0x5003, 0, true),
    (0x5003, 0x5001, true),
    (0x5007, 0x5003, true),
    (0x5003, 0x5002, true),
    (0x5003, 0x6003, true),
    (0x5003, 0x5083, true),
    (0x5003, 0x8000_0000_0000_5003, true),
    (0x5003, 0x5063, false),
    (0x5023, 0x5003, true),
    (0x5063, 0x5023, true),
    (0x5003, 0x500b, true),
    (0x5013, 0x5003, true),
    (0x5003, 0x5103, true),
    (0x0800_0000_0000_5003, 0x5003, true),
    (0x5003, 0x4000_0000_0000_5003, true),
    (0x5003, 0x5203, false),
    (0x5003, 0x0400_0000_0000_5003, false),
];

/// Asserts that a call names no index of level four.
fn check_nameless(call_row: CallRow) {
    let call: Call = unwrap_some(call_of(call_row));
    let named = (0..512).any(|index| call.names(PageTableIndex::new_truncate(index)));
    assert!(!named);
}

#[test]
fn calls_are_flushed_if_they_take_something_away() {
    check_flushes::<FourLevels, NoLevelFive>(&ROWS);
    check_flushes::<FiveLevels, PageTableFlags>(&ROWS_57);
    for (old, new, lost) in CHANGES {
        let before = PageTableEntry::from_word(old);
        let after = PageTableEntry::from_word(new);
        assert_equal_in((old, new), loses(&before, &after), lost);
    }
    // An identity map past the lower half names no index. Those of other calls are in `tests/pagetab/names.txt`.
    check_nameless(Small(IdentityMap(0x8000_0000_0000, 0x1)));
}
