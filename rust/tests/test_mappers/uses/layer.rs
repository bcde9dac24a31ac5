//! A layer around a mapper, which has all of a mapper's calls. The owner of the memory below learns what they did.

use crate::more::MoreOfVec;
use x86_64_paging::support::Vec;

use x86_64_paging::structures::paging::mapper::{TableAccess, UnmapError};
use x86_64_paging::structures::paging::{
    MappedPageTable, Mapper, Page, PageSize, PageTable, PageTableFlags, PageTableIndex, PhysFrame, Size4KiB,
};
use x86_64_paging::support::AllocError;
use x86_64_paging::{run, Call, FramePool, IdentityMapping, LevelCount, PhysMemory, Reply, Tables, TablesIn};

/// A layer that passes on each table of a mapper, and counts the tables that it lends to be changed.
pub struct Counting<'a, M> {
    mapper: &'a mut M,
    count: u64,
}

impl<'a, M> Counting<'a, M> {
    /// Creates a layer around a mapper. No table has been lent yet.
    pub fn new(mapper: &'a mut M) -> Self {
        Counting { mapper, count: 0 }
    }
}

impl<'a, M: Tables> Tables for Counting<'a, M> {
    fn recursive_index(&self) -> Option<PageTableIndex> {
        self.mapper.recursive_index()
    }
}

impl<'a, M: TablesIn<L>, L: LevelCount> TablesIn<L> for Counting<'a, M> {}

impl<'a, M: TableAccess> TableAccess for Counting<'a, M> {
    fn root(&self) -> PhysFrame<Size4KiB> {
        self.mapper.root()
    }

    fn new_table_flags(&self) -> PageTableFlags {
        self.mapper.new_table_flags()
    }

    fn table(&self, path: &[PageTableIndex], frame: PhysFrame<Size4KiB>) -> &PageTable {
        self.mapper.table(path, frame)
    }

    fn table_mut(&mut self, path: &[PageTableIndex], frame: PhysFrame<Size4KiB>) -> &mut PageTable {
        self.count = self.count.saturating_add(1);
        self.mapper.table_mut(path, frame)
    }

    fn clear_unnamed(&mut self, frame: PhysFrame<Size4KiB>) -> bool {
        self.mapper.clear_unnamed(frame)
    }
}

/// Unmaps a page with any mapper. Requires that its path is not in the recursive window.
pub fn unmap_by<S: PageSize, M: Mapper<S>>(mapper: &mut M, page: Page<S>) -> Result<PhysFrame<S>, UnmapError> {
    let (frame, flush) = mapper.unmap(page)?;
    flush.ignore();
    Ok(frame)
}

/// Unmaps a page with a layer around any mapper, and returns the number of tables that the layer lent to be changed.
/// The layer is then dropped. The call has its usual effect on the mapper.
pub fn unmap_by_layer<S: PageSize, M: Mapper<S>>(mapper: &mut M, page: Page<S>) -> (Result<PhysFrame<S>, UnmapError>, u64) {
    let mut layer = Counting::new(mapper);
    let answer = unmap_by(&mut layer, page);
    (answer, layer.count)
}

/// Does this with a layer around a mapper of a memory. The owner knows what the call did to the memory.
pub fn unmap_counted<S: PageSize>(
    memory: &mut PhysMemory,
    root: PhysFrame<Size4KiB>,
    page: Page<S>,
) -> (Result<PhysFrame<S>, UnmapError>, u64) {
    let mut mapper = MappedPageTable::new(memory, root, IdentityMapping);
    unmap_by_layer(&mut mapper, page)
}

/// Executes calls with a layer, and returns the number of tables that were lent to be changed.
pub fn run_counted(
    memory: &mut PhysMemory,
    root: PhysFrame<Size4KiB>,
    pool: &mut FramePool,
    calls: &[Call],
    replies: &mut Vec<Reply>,
) -> Result<u64, AllocError> {
    let mut mapper = MappedPageTable::new(memory, root, IdentityMapping);
    let mut layer = Counting::new(&mut mapper);
    run(&mut layer, pool, calls, replies)?;
    Ok(layer.count)
}
