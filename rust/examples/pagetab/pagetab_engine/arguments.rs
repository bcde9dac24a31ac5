//! The program's arguments.

use crate::pagetab_engine::fields::read_number;
use crate::pagetab_engine::slot::index_at;
use x86_64_paging::addresses::level_count::Levels;
use x86_64_paging::structures::paging::PageTableIndex;
use x86_64_paging::{CallIn, LevelCount, LevelFiveFlags, VirtAddr};

/// How tables are found in memory, and the number of levels. A place is the index of a table in memory.
#[derive(Clone, Copy)]
pub enum Mode {
    /// Each frame lies at the place of its number.
    Direct(Levels),
    /// The whole memory is mapped into the virtual address space from this address on. There are four levels.
    Offset(VirtAddr),
    /// Each frame lies at the place of its number, and tables are reached through the root's entry for itself, which
    /// is at this index.
    Recursive(Levels, PageTableIndex),
    /// Two memories have one image, and each call is executed by two mappers. One is the direct mapper. The other is
    /// the recursive mapper with the root's entry for itself at this index.
    Pair(Levels, PageTableIndex),
}

impl Mode {
    /// Returns the number of levels.
    pub fn levels(self) -> Levels {
        match self {
            Mode::Direct(levels) | Mode::Recursive(levels, _) | Mode::Pair(levels, _) => levels,
            Mode::Offset(_) => Levels::Four,
        }
    }

    /// Returns true if a call names the recursive index of a pair.
    pub fn is_named<L: LevelCount, P5: LevelFiveFlags<L>>(self, call: &CallIn<L, P5>) -> bool {
        match self {
            Mode::Direct(_) | Mode::Offset(_) | Mode::Recursive(..) => false,
            Mode::Pair(_, index) => call.names(index),
        }
    }
}

/// The parsed arguments.
#[derive(Clone, Copy)]
pub struct Arguments {
    /// How tables are found, and the number of levels.
    pub mode: Mode,
    /// The number of places of the memory, from 2 to 65536.
    pub places: u64,
}

impl Arguments {
    /// Parses `direct N`, `offset N OFF`, `recursive N R` or `pair N R`, or for five levels `direct5 N`, `recursive5
    /// N R` or `pair5 N R`. Returns `None` if and only if the words are none of these.
    pub fn parse(words: &[String]) -> Option<Arguments> {
        match words {
            [mode, places] => Some(Arguments { places: parse_places(places.as_str())?, mode: parse_word(mode.as_str())? }),
            [mode, places, number] => {
                Some(Arguments { places: parse_places(places.as_str())?, mode: parse_mode(mode.as_str(), number.as_str())? })
            }
            _ => None,
        }
    }
}

/// Parses the word of a mode without a number, `direct` or `direct5`. Returns `None` if it is neither.
fn parse_word(word: &str) -> Option<Mode> {
    if word == "direct" {
        Some(Mode::Direct(Levels::Four))
    } else if word == "direct5" {
        Some(Mode::Direct(Levels::Five))
    } else {
        None
    }
}

/// Parses the word of a mode with a number: `offset` with OFF, or `recursive`, `recursive5`, `pair` or `pair5` with
/// R. Returns `None` if they are none of these.
fn parse_mode(word: &str, number: &str) -> Option<Mode> {
    let number = read_number(number)?;
    if word == "offset" {
        Some(Mode::Offset(VirtAddr::checked_new(number)?))
    } else if word == "recursive" {
        Some(Mode::Recursive(Levels::Four, index_at(number)?))
    } else if word == "recursive5" {
        Some(Mode::Recursive(Levels::Five, index_at(number)?))
    } else if word == "pair" {
        Some(Mode::Pair(Levels::Four, index_at(number)?))
    } else if word == "pair5" {
        Some(Mode::Pair(Levels::Five, index_at(number)?))
    } else {
        None
    }
}

/// Parses a number of places, from 2 to 65536. Returns `None` if the text is no such number.
fn parse_places(text: &str) -> Option<u64> {
    let places = read_number(text)?;
    if (2..=65536).contains(&places) {
        Some(places)
    } else {
        None
    }
}
