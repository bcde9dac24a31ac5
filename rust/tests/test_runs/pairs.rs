//! Two alike hierarchies, of which the second one has a recursive index, and lists of calls with both mappers at
//! once.

use crate::more::MoreOfVec;
use x86_64_paging::support::Vec;

use crate::prelude::*;
use x86_64_paging::{run_pair, tables_alike, tables_alike_57};

/// Returns whether the path maps of two hierarchies with this number of levels are alike. The second one has a
/// recursive index.
fn are_alike<L: LevelCount>(memory: &PhysMemory, walked: &PhysMemory, root: PhysFrame<Size4KiB>, index: PageTableIndex) -> bool {
    let (mapping, index) = (&IdentityMapping, Some(index));
    if L::LEVELS == 4 {
        tables_alike(memory, mapping, root, None, walked, mapping, root, index)
    } else {
        tables_alike_57(memory, mapping, root, None, walked, mapping, root, index)
    }
}

/// Returns true if two hierarchies with this number of levels are valid, the second one for a recursive index, their
/// pools fit them, the path maps are alike, and the free frames equal.
pub fn is_pair<L: LevelCount>(
    root: PhysFrame<Size4KiB>,
    index: PageTableIndex,
    memory: &PhysMemory,
    pool: &FramePool,
    walked: &PhysMemory,
    walked_pool: &FramePool,
) -> bool {
    let fits = fits::<L>(memory, root, pool);
    let walked_fits = fits_recursive::<L>(walked, root, index, walked_pool);
    let alike = are_alike::<L>(memory, walked, root, index);
    let same_free = *pool == *walked_pool;
    fits & walked_fits & alike & same_free
}

/// Returns true if no call names an index of the highest level.
pub fn none_names<L: LevelCount, P5: LevelFiveFlags<L>>(calls: &[CallIn<L, P5>], index: PageTableIndex) -> bool {
    calls.iter().all(|call| !call.names(index))
}

/// Executes calls that don't name the recursive index, with the mapper over the identity mapping and with the
/// recursive one. Both mappers are then dropped, and the owner of the memories knows that they are a pair again.
pub fn run_pair_on<L: LevelCount, P5: LevelFiveFlags<L>>(
    root: PhysFrame<Size4KiB>,
    index: PageTableIndex,
    memory: &mut PhysMemory,
    pool: &mut FramePool,
    walked: &mut PhysMemory,
    walked_pool: &mut FramePool,
    calls: &[CallIn<L, P5>],
) -> Result<Vec<ReplyIn<L>>, AllocError> {
    let mut direct = MappedPageTableIn::<IdentityMapping, L>::new(memory, root, IdentityMapping);
    let active = Active::<L>::new(walked, root);
    let mut recursive = RecursivePageTableIn::<L>::new_unchecked(active, index);
    run_pair(&mut direct, pool, &mut recursive, walked_pool, calls)
}
