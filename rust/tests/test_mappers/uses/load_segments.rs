//! Maps the segments of a program.

use x86_64_paging::loader::{frames_needed, load, segments_allowed, LoadError, Segment};
use x86_64_paging::structures::paging::mapper::MapperAllSizes;
use x86_64_paging::FramePool;

/// Maps the segments of a program. Returns false if they may not be mapped.
pub fn load_program<M: MapperAllSizes>(mapper: &mut M, pool: &mut FramePool, segments: &[Segment]) -> Result<bool, LoadError> {
    if !segments_allowed(mapper, segments) {
        return Ok(false);
    }
    load(mapper, pool, segments)?;
    Ok(true)
}

/// Loads segments that do not overlap, into addresses where nothing is mapped, if there are as many frames as needed.
/// Returns true if there are. Then no map is refused.
pub fn load_unmapped<M: MapperAllSizes>(mapper: &mut M, pool: &mut FramePool, segments: &[Segment]) -> bool {
    let free = pool.len() as u64;
    let Some(needed) = frames_needed(segments) else {
        return false;
    };
    if free < needed {
        return false;
    }
    match load(mapper, pool, segments) {
        Ok(()) => true,
        Err(_) => unreachable!(),
    }
}
