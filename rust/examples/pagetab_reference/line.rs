//! What lines say.

use crate::mode::Mode;
use crate::test_reference::{PlainCall, PlainPage};
use std::num::ParseIntError;

/// A line of the image, or a command.
pub enum Line {
    /// `word FRAME INDEX VALUE`.
    Word { frame: u64, index: u64, word: u64 },
    /// `free FRAME`.
    Free(u64),
    /// `show FRAME INDEX`.
    Show { frame: u64, index: u64 },
    /// `pool`.
    Pool,
    /// Any other command.
    Call(PlainCall),
}

impl Line {
    /// Parses a line.
    pub fn parse(mode: Mode, text: &str) -> Result<Line, String> {
        let (name, fields) = text.split_once(' ').unwrap_or((text, ""));
        let mut level = None;
        let mut numbers = Vec::new();
        for field in fields.split_whitespace() {
            match field {
                "4KiB" => level = Some(1),
                "2MiB" => level = Some(2),
                "1GiB" => level = Some(3),
                _ => numbers.push(parse_number(field).map_err(|why| format!("{field}: {why}"))?),
            }
        }
        let Some(level) = level else {
            return Line::without_size(mode, name, &numbers);
        };
        Ok(Line::Call(page_call(mode, level, name, &numbers).ok_or("no command on a page")?))
    }

    /// Returns the line with a name and numbers.
    fn without_size(mode: Mode, name: &str, numbers: &[u64]) -> Result<Line, String> {
        Ok(match (name, numbers) {
            ("word", &[frame, index, word]) => Line::Word { frame, index, word },
            ("free", &[frame]) => Line::Free(frame),
            ("show", &[frame, index]) => Line::Show { frame, index },
            ("pool", []) => Line::Pool,
            _ => Line::Call(address_call(mode, name, numbers).ok_or("no line of these")?),
        })
    }
}

/// Parses a number: decimal, or hexadecimal after `0x`.
pub fn parse_number(text: &str) -> Result<u64, ParseIntError> {
    match text.strip_prefix("0x") {
        Some(digits) => u64::from_str_radix(digits, 16),
        None => text.parse(),
    }
}

/// Returns the call with a name and addresses, or `None` if there is none.
fn address_call(mode: Mode, name: &str, addresses: &[u64]) -> Option<PlainCall> {
    match (name, addresses) {
        ("translate", &[address]) => Some(PlainCall::Translate { position: mode.position_of(address) }),
        ("addr", &[address]) => Some(PlainCall::TranslateAddress { position: mode.position_of(address) }),
        ("cleanup", []) => Some(PlainCall::CleanUp { low: 0, high: mode.last_position() }),
        ("cleanup-range", &[first, last]) => {
            Some(PlainCall::CleanUp { low: mode.position_of(first), high: mode.position_of(last) | 0xfff })
        }
        _ => None,
    }
}

/// Returns the call with a name and numbers on a page of a level, or `None` if there is none.
fn page_call(mode: Mode, level: usize, name: &str, numbers: &[u64]) -> Option<PlainCall> {
    let (&first, others) = numbers.split_first()?;
    let page = PlainPage { level, position: mode.position_of(first) };
    match (name, others) {
        ("map", &[frame, flags]) => Some(PlainCall::MapTo { page, frame, flags }),
        ("map-with", &[frame, flags, parent_flags]) => Some(PlainCall::MapToWithTableFlags { page, frame, flags, parent_flags }),
        ("identity", &[flags]) => Some(PlainCall::IdentityMap { level, frame: first, flags }),
        ("unmap", []) => Some(PlainCall::Unmap { page }),
        ("update", &[flags]) => Some(PlainCall::UpdateFlags { page, flags }),
        ("translate-page", []) => Some(PlainCall::TranslatePage { page }),
        (name, &[flags]) => entry_level(name).map(|level| PlainCall::SetFlags { level, page, flags }),
        _ => None,
    }
}

/// Returns the level of the entry whose flags the command of a name sets, or `None` if it sets none.
fn entry_level(name: &str) -> Option<usize> {
    match name {
        "p5" => Some(5),
        "p4" => Some(4),
        "p3" => Some(3),
        "p2" => Some(2),
        _ => None,
    }
}
