//! The kinds of replies that calls had.

use crate::prelude::*;
use crate::test_reference::PlainCall;
use std::collections::HashSet;

/// The number of pairs of a call and a kind of its reply that can occur with four levels, which `tests/agreement` lists.
pub const OUTCOMES: usize = 109;

/// The number of further ones with five levels.
pub const OUTCOMES_OF_LEVEL_5: usize = 9;

/// The pairs of a call and a kind of its reply that occurred, as numbers.
#[derive(Default)]
pub struct Met {
    outcomes: HashSet<(usize, u8)>,
}

impl Met {
    /// Returns the number of pairs.
    pub fn count(&self) -> usize {
        self.outcomes.len()
    }

    /// Adds the reply to a call, which may have returned tables to the free frames.
    pub fn add(&mut self, call: &PlainCall, reply: PlainReply, back: bool) {
        self.outcomes.insert((number_of(call), kind_of(reply, back)));
    }
}

/// Returns a number that says which call it is and, if it is on a page, of which size, by its level.
fn number_of(call: &PlainCall) -> usize {
    let (number, size) = match call {
        PlainCall::MapTo { page, .. } => (0, page.level),
        PlainCall::MapToWithTableFlags { page, .. } => (8, page.level),
        PlainCall::IdentityMap { level, .. } => (16, *level),
        PlainCall::Unmap { page } => (24, page.level),
        PlainCall::UpdateFlags { page, .. } => (32, page.level),
        PlainCall::TranslatePage { page } => (40, page.level),
        PlainCall::SetFlags { level, page, .. } => (level * 64, page.level),
        PlainCall::Translate { .. } => (48, 0),
        PlainCall::TranslateAddress { .. } => (48, 1),
        // a clean up of all pages, which no range that is chosen has
        PlainCall::CleanUp { high, .. } if *high % 0x80_0000_0000 == 0x7f_ffff_ffff => (48, 2),
        PlainCall::CleanUp { .. } => (48, 3),
    };
    size + number
}

/// Returns the number of the kind of a reply, which is the reply without addresses and flags.
fn kind_of(reply: PlainReply, back: bool) -> u8 {
    match reply {
        PlainReply::NotAllowed => 0,
        PlainReply::Cleaned => 1 + u8::from(back),
        PlainReply::Address(address) => 3 + u8::from(address.is_some()),
        PlainReply::Position(Translated::NotMapped) => 5,
        PlainReply::Position(Translated::Mapped { size, .. }) => match size {
            0x1000 => 6,
            0x20_0000 => 7,
            _ => 8,
        },
        PlainReply::Answered(Answer::Done(_)) => 9,
        PlainReply::Answered(Answer::Refused(why)) => match why {
            Refusal::PageNotMapped => 10,
            Refusal::ParentEntryHugePage => 11,
            Refusal::InvalidFrameAddress(_) => 12,
            Refusal::PageAlreadyMapped(_) => 13,
            Refusal::FrameAllocationFailed => 14,
        },
    }
}
