//! Spans, indices and paths of positions, which are the numbers of addresses counted without the gap in the middle of the address
//! space.

use crate::more::MoreOfVec;
use x86_64_paging::support::Vec;

use x86_64_paging::support::AllocError;

/// Returns the number of positions that an entry of a level spans.
pub fn span(level: usize) -> u64 {
    1 << (12 + 9 * level.saturating_sub(1))
}

/// Returns the index of a level at a position.
pub fn index(level: usize, position: u64) -> u64 {
    position / span(level) % 512
}

/// Returns the number of positions in the lower half of the address space.
pub fn lower_half(levels: usize) -> u64 {
    1 << (11 + 9 * levels)
}

/// Returns the indices at a position, from a level down to level one.
pub fn page_path(level: usize, position: u64) -> Result<Vec<u64>, AllocError> {
    let mut path = Vec::new();
    for below in 0..level {
        path.push(index(level - below, position))?;
    }
    Ok(path)
}

/// Returns true if the entry at a path is of level one.
pub fn is_small(levels: usize, path: &[u64]) -> bool {
    path.len() == levels
}

/// Returns the level of the entry at a path.
pub fn level_of(levels: usize, path: &[u64]) -> usize {
    (levels + 1).saturating_sub(path.len())
}

/// Returns the number of positions that the entry at a path spans.
pub fn span_size(levels: usize, path: &[u64]) -> u64 {
    span(level_of(levels, path))
}

/// Returns the first `length` indices of a path, or all of it if it is shorter.
pub fn front(path: &[u64], length: usize) -> &[u64] {
    if length < path.len() {
        &path[..length]
    } else {
        path
    }
}

/// Returns the front part of a path that names the entry of a level.
pub fn front_at(levels: usize, level: usize, path: &[u64]) -> &[u64] {
    front(path, (levels + 1).saturating_sub(level))
}
