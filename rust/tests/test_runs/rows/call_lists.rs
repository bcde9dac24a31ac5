//! Lists of calls, and calls of a mapper's methods: each call and each kind of reply, with what is flushed. Refused
//! calls and clean ups flush nothing.
use super::{check_rows, By, Exchange, Flushed, Row, Word};
use crate::call_rows::CallRow::{CleanUp, CleanUpRange, Giant, Large, Small, Translate, TranslateAddr};
use crate::call_rows::PageCallRow::{IdentityMap, MapTo, MapToWithTableFlags, SetFlags, TranslatePage, Unmap, UpdateFlags};
use crate::prelude::*;
use crate::test_reference::Answer::Refused;
use crate::test_reference::PlainReply::{Address, NotAllowed, Position};
use crate::test_reference::Refusal::{
    FrameAllocationFailed, InvalidFrameAddress, PageAlreadyMapped, PageNotMapped, ParentEntryHugePage,
};
use crate::test_reference::Translated::{Mapped, NotMapped};

/// The lists are executed over a reference to the identity mapping.
const WAYS: [By; 5] = [By::Reference, By::Recorded(0), By::Recorded(64), By::Single(0), By::Single(64)];

/// Maps the 4KiB page 0x1000 to the frame 0x5000, with `PRESENT` and `WRITABLE`.
const FIRST: Exchange = (Small(MapTo(0x1000, 0x5000, 0x3)), Answered(Done(0x5000)));

/// The word of each level that then maps it.
const WORDS: [Word; 4] = [(0x1000, 0, 0x2003), (0x2000, 0, 0x3003), (0x3000, 0, 0x4003), (0x4000, 1, 0x5003)];

/// A row of the first map, which takes all three free frames.
pub(super) const MAPPED: Row<'static> = Row {
    places: &[0, 1, 2, 3, 4, 5, 6, 7],
    free: &[0x2000, 0x3000, 0x4000],
    root: ROOT,
    calls: &[FIRST],
    words: &WORDS,
    full: &[],
    left: &[],
    flushed: &[SMALL],
};

/// Maps the 2MiB page 0x200000 to the frame 0x400000, with `PRESENT`.
const FIRST_LARGE: Exchange = (Large(MapTo(0x20_0000, 0x40_0000, 0x1)), Answered(Done(0x40_0000)));

/// The 4KiB page 0x1000.
const SMALL: Flushed = Some((0x1000, 0x1000));

/// The 2MiB page 0x200000.
const LARGE: Flushed = Some((0x20_0000, 0x20_0000));

/// The reply for a page that isn't mapped.
const UNMAPPED: PlainReply = Answered(Refused(PageNotMapped));

/// The reply where a larger page would have to be a table, or a table a page.
const HUGE: PlainReply = Answered(Refused(ParentEntryHugePage));

/// Rows in which each call and each kind of reply is met.
static ROWS: [Row<'static>; 5] = [
    Row {
        calls: &[
            FIRST_LARGE,
            (Large(UpdateFlags(0x20_0000, 0x1)), Answered(Done(0x40_0000))),
            (Small(SetFlags(4, 0x0, 0x1)), Answered(Done(0x2000))),
            (Large(Unmap(0x20_0000)), Answered(Done(0x40_0000))),
            (Small(Unmap(0x1000)), UNMAPPED),
            (Large(Unmap(0x20_0000)), UNMAPPED),
        ],
        words: &[(0x1000, 0, 0x2001), (0x2000, 0, 0x3001)],
        full: &[0x4000],
        left: &[0x4000],
        flushed: &[LARGE, LARGE, None, LARGE],
        ..MAPPED
    },
    Row {
        calls: &[
            FIRST,
            (Small(Unmap(0x1000)), Answered(Done(0x5000))),
            (CleanUpRange(0x20_0000, 0x1000), Cleaned),
            (CleanUpRange(0x1000, 0x20_0000), Cleaned),
            (CleanUp, Cleaned),
        ],
        words: &[],
        left: &[0x2000, 0x3000, 0x4000],
        flushed: &[SMALL, SMALL],
        ..MAPPED
    },
    Row {
        calls: &[
            (Small(MapToWithTableFlags(0x1000, 0x5000, 0x3, 0x1)), Answered(Done(0x5000))),
            (Translate(0x1abc), Position(Mapped { size: 0x1000, frame: 0x5000, offset: 0xabc, flags: 0x3 })),
            (Translate(0x2000), Position(NotMapped)),
            (TranslateAddr(0x1abc), Address(Some(0x5abc))),
            (TranslateAddr(0x2000), Address(None)),
            (Small(TranslatePage(0x1000)), Answered(Done(0x5000))),
            (Small(TranslatePage(0x2000)), UNMAPPED),
            (Large(TranslatePage(0x0)), Answered(Refused(InvalidFrameAddress(0x4000)))),
            (Small(MapTo(0x1000, 0x5000, 0x81)), NotAllowed),
            (Small(MapTo(0x1000, 0x9000, 0x1)), Answered(Refused(PageAlreadyMapped(0x9000)))),
            (Small(MapTo(0x4000_0000, 0x6000, 0x1)), Answered(Refused(FrameAllocationFailed))),
            (Small(IdentityMap(0x8000_0000_0000, 0x1)), NotAllowed),
            (Small(IdentityMap(0x5000, 0x1)), Answered(Done(0x5000))),
            (Small(UpdateFlags(0x5000, 0x1003)), NotAllowed),
            (Small(UpdateFlags(0x5000, 0x3)), Answered(Done(0x5000))),
            (Large(UpdateFlags(0x0, 0x1)), UNMAPPED),
        ],
        words: &[(0x1000, 0, 0x2001), (0x2000, 0, 0x3001), (0x3000, 0, 0x4001), (0x4000, 1, 0x5003), (0x4000, 5, 0x5003)],
        flushed: &[SMALL, Some((0x5000, 0x1000)), Some((0x5000, 0x1000))],
        ..MAPPED
    },
    // Flags of tables. The lower levels come first, since no entry below one without `PRESENT` can be reached.
    Row {
        calls: &[
            FIRST,
            (Small(SetFlags(4, 0x1000, 0x83)), NotAllowed),
            (Small(SetFlags(3, 0x1000, 0x83)), NotAllowed),
            (Small(SetFlags(2, 0x1000, 0x83)), NotAllowed),
            (Giant(SetFlags(3, 0x0, 0x1)), HUGE),
            (Small(SetFlags(3, 0x80_0000_0000, 0x1)), UNMAPPED),
            (Small(SetFlags(2, 0x1000, 0xa)), Answered(Done(0x4000))),
            (Small(SetFlags(3, 0x1000, 0x6)), Answered(Done(0x3000))),
            (Small(SetFlags(4, 0x1000, 0x12)), Answered(Done(0x2000))),
        ],
        words: &[(0x1000, 0, 0x2012), (0x2000, 0, 0x3006), (0x3000, 0, 0x400a), (0x4000, 1, 0x5003)],
        flushed: &[SMALL, None, None, None],
        ..MAPPED
    },
    // Larger pages.
    Row {
        calls: &[
            (Giant(MapTo(0x4000_0000, 0x8000_0000, 0x3)), Answered(Done(0x8000_0000))),
            FIRST_LARGE,
            (Small(MapTo(0x20_1000, 0x9000, 0x3)), HUGE),
            (Small(Unmap(0x20_0000)), HUGE),
            (Small(UpdateFlags(0x20_0000, 0x1)), HUGE),
            (Small(TranslatePage(0x20_0000)), HUGE),
        ],
        words: &[(0x1000, 0, 0x2003), (0x2000, 0, 0x3003), (0x2000, 1, 0x8000_0083), (0x3000, 1, 0x40_0083)],
        full: &[0x4000],
        left: &[0x4000],
        flushed: &[Some((0x4000_0000, 0x4000_0000)), LARGE],
        ..MAPPED
    },
];

#[test]
fn calls_are_answered_and_recorded() {
    check_rows(&ROWS, &WAYS)
}

/// The first map, with two of the free frames past a gap between places.
static PAST_A_GAP: [Row<'static>; 1] = [Row {
    places: &[1, 2, 0x8_0000, 0x8_0001],
    free: &[0x2000, 0x8000_0000, 0x8000_1000],
    words: &[(0x1000, 0, 0x2003), (0x2000, 0, 0x8000_0003), (0x8000_0000, 0, 0x8000_1003), (0x8000_1000, 1, 0x5003)],
    ..MAPPED
}];

#[test]
fn tables_are_made_past_a_gap() {
    let ways = [By::Identity, By::Reference, By::Offset, By::Single(0), By::Recursive];
    check_rows(&PAST_A_GAP, &ways)
}
