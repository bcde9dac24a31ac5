//! Rights as letters.

use crate::tables::page_table::Rights;
use crate::text::pieces::{put, CAPACITY};

/// Writes rights so that they end at `end`, and returns where they start.
#[inline(always)]
pub(crate) fn put_rights(line: &mut [u8; CAPACITY], end: usize, rights: Rights) -> usize {
    let start = put(line, end, letter(rights.user, b'u'));
    let start = put(line, start, letter(rights.execute, b'x'));
    let start = put(line, start, letter(rights.write, b'w'));
    put(line, start, b'r')
}

/// Returns the letter of a right, or `-` without the right.
#[inline(always)]
fn letter(holds: bool, letter: u8) -> u8 {
    if holds {
        letter
    } else {
        b'-'
    }
}
