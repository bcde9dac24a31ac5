//! Calls as numbers, converted to calls of the plain program. An address is written as its position: its number counted
//! without the gap in the middle of the address space.

use crate::call_rows::{CallRow, PageCallRow};
use crate::prelude::*;
use crate::test_reference::{PlainCall, PlainPage};

/// Returns the call of the plain program, with this number of levels.
pub fn plain_of(levels: usize, call: CallRow) -> PlainCall {
    match call {
        CallRow::Small(call) => page_call(1, call),
        CallRow::Large(call) => page_call(2, call),
        CallRow::Giant(call) => page_call(3, call),
        CallRow::Translate(position) => PlainCall::Translate { position },
        CallRow::TranslateAddr(position) => PlainCall::TranslateAddress { position },
        CallRow::CleanUp => PlainCall::CleanUp { low: 0, high: if levels == 4 { 0xffff_ffff_ffff } else { 0x01ff_ffff_ffff_ffff } },
        CallRow::CleanUpRange(low, last) => PlainCall::CleanUp { low, high: last | 0xfff },
    }
}

/// Returns the call on a page of a level.
fn page_call(level: usize, call: PageCallRow) -> PlainCall {
    let page = PlainPage { level, position: page_of(call) };
    match call {
        PageCallRow::MapTo(_, frame, flags) => PlainCall::MapTo { page, frame, flags },
        PageCallRow::MapToWithTableFlags(_, frame, flags, parent_flags) => {
            PlainCall::MapToWithTableFlags { page, frame, flags, parent_flags }
        }
        PageCallRow::IdentityMap(frame, flags) => PlainCall::IdentityMap { level, frame, flags },
        PageCallRow::Unmap(_) => PlainCall::Unmap { page },
        PageCallRow::UpdateFlags(_, flags) => PlainCall::UpdateFlags { page, flags },
        PageCallRow::SetFlags(entry_level, _, flags) => PlainCall::SetFlags { level: entry_level as usize, page, flags },
        PageCallRow::TranslatePage(_) => PlainCall::TranslatePage { page },
    }
}

/// Returns the page of a call.
pub fn page_of(call: PageCallRow) -> u64 {
    match call {
        PageCallRow::MapTo(page, ..)
        | PageCallRow::MapToWithTableFlags(page, ..)
        | PageCallRow::IdentityMap(page, _)
        | PageCallRow::Unmap(page)
        | PageCallRow::UpdateFlags(page, _)
        | PageCallRow::SetFlags(_, page, _)
        | PageCallRow::TranslatePage(page) => page,
    }
}
