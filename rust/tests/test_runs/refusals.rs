//! Tests in which memory allocation fails. They fill the address space.
mod attempts;
mod lists;
mod pairs;
mod tokens;

use crate::more::Hoard;
use crate::prelude::*;

/// Takes all available memory, except room for blocks of these sizes, in the order in which they will be requested.
fn hoard_past(room: &[usize]) -> Hoard {
    unwrap(Hoard::past(room))
}
