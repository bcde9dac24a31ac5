//! The modes of the program, and the plain machines that answer in them.

use crate::test_reference::positions::index;
use crate::test_reference::{PlainCall, PlainMachine, PlainWindow};

/// The number of levels, and how tables are found.
#[derive(Clone, Copy)]
pub struct Mode {
    pub levels: usize,
    /// The index at which the root of the image names itself, if it does.
    pub recursive_index: Option<u64>,
    /// True if two mappers execute each call. The root of the first one doesn't name itself.
    pub is_pair: bool,
}

impl Mode {
    /// Parses the word of a mode. The number is the recursive index, or the offset, on which no reply depends.
    pub fn parse(word: &str, number: u64) -> Option<Mode> {
        let (levels, recursive_index, is_pair) = match word {
            "direct" | "offset" => (4, None, false),
            "recursive" => (4, Some(number), false),
            "pair" => (4, Some(number), true),
            "direct5" => (5, None, false),
            "recursive5" => (5, Some(number), false),
            "pair5" => (5, Some(number), true),
            _ => return None,
        };
        Some(Mode { levels, recursive_index, is_pair })
    }

    /// Returns the recursive index of the mapper that answers: that of a pair has none.
    pub fn window_index(self) -> Option<u64> {
        self.recursive_index.filter(|_| !self.is_pair)
    }

    /// Returns the plain machine, given the root's entry for itself.
    pub fn machine(self, self_entry: u64) -> PlainMachine {
        let window = self.window_index().map(|index| PlainWindow { index, self_entry });
        PlainMachine { levels: self.levels, window, added_flags: if window.is_some() { 0x3 } else { 0x0 } }
    }

    /// Returns the last position. A position is the number of an address counted without the gap in the middle of the address space.
    pub fn last_position(self) -> u64 {
        (1 << (12 + 9 * self.levels)) - 1
    }

    /// Returns the position of an address.
    pub fn position_of(self, address: u64) -> u64 {
        address & self.last_position()
    }

    /// Returns true if a call isn't allowed because it names the recursive index of a pair.
    pub fn is_refused(self, call: &PlainCall) -> bool {
        let position = match *call {
            PlainCall::MapTo { page, .. }
            | PlainCall::MapToWithTableFlags { page, .. }
            | PlainCall::Unmap { page }
            | PlainCall::UpdateFlags { page, .. }
            | PlainCall::SetFlags { page, .. }
            | PlainCall::TranslatePage { page } => page.position,
            PlainCall::IdentityMap { frame, .. } => frame,
            PlainCall::Translate { position } | PlainCall::TranslateAddress { position } => position,
            PlainCall::CleanUp { .. } => return false,
        };
        self.is_pair && Some(index(self.levels, position)) == self.recursive_index
    }
}
