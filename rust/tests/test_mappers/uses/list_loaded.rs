//! Loads segments, drops the mapper, and lists all mappings below the root.

use crate::more::MoreOfVec;
use x86_64_paging::support::Vec;

use crate::uses::list_mappings::list_all;
use x86_64_paging::loader::{load, segments_allowed, Segment};
use x86_64_paging::structures::paging::mapper::MapperAllSizes;
use x86_64_paging::structures::paging::{MappedPageTable, PhysFrame, Size4KiB};
use x86_64_paging::support::AllocError;
use x86_64_paging::{FramePool, IdentityMapping, Mapping, TableMemory};

/// Loads segments with any mapper, if they may be loaded, and returns true if all of them were.
fn load_by<M: MapperAllSizes>(mapper: &mut M, pool: &mut FramePool, segments: &[Segment]) -> bool {
    if !segments_allowed(mapper, segments) {
        return false;
    }
    load(mapper, pool, segments).is_ok()
}

/// Loads segments with a mapper that is then dropped, if they may be loaded, and returns true if all of them were.
fn load_into<T: TableMemory>(memory: &mut T, root: PhysFrame<Size4KiB>, pool: &mut FramePool, segments: &[Segment]) -> bool {
    let mut mapper = MappedPageTable::new(memory, root, IdentityMapping);
    load_by(&mut mapper, pool, segments)
}

/// Loads segments with pages of 4KiB, drops the mapper, and lists all mappings below the root. Each page of the
/// segments is among them. Returns `None` if the segments may not be loaded, or not all of them were.
pub fn load_and_list<T: TableMemory>(
    memory: &mut T,
    root: PhysFrame<Size4KiB>,
    pool: &mut FramePool,
    segments: &[Segment],
) -> Result<Option<Vec<Mapping>>, AllocError> {
    if !load_into(memory, root, pool, segments) {
        return Ok(None);
    }
    let listed = list_all(memory, root)?;
    Ok(Some(listed))
}
