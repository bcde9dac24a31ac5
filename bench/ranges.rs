//! Maps, changes of flags and unmaps of contiguous pages, one page at a time and as a range.
ghost use Rattle.std.specs.Prelude.{◌≡◌};
ghost use Rattle.x86_64_model.specs.Hierarchy.{Valid, SupplyFits};
ghost use Rattle.x86_64_bench.specs.Counting.{counted};

use crate::page_calls::{flags, update_page};
use crate::rounds::{Access, Part, map_all, new_pool, pool_fits_in, root, since, unmap_all};
use crate::workload::Workload;
use bitflags::Flags;
use std::alloc::Global;
use std::io;
use std::time::CpuClock;
use x86_64::structures::paging::mapper::MappedPageTableIn;
use x86_64::structures::paging::{FrameAllocator, MappedPageTable, PageSize, PhysFrame, Size4KiB};
use x86_64::{FourLevels, FramePool, IdentityMapping, PhysMemory, TableMemory, TablesIn};
use x86_64_mappers::calls::{
    FrameSink, MapRangeErrorIn, TableAccess, map_range, map_range_allowed, range_allowed,
    unmap_range, update_flags_range,
};

/// How pages are mapped, changed and unmapped.
#[derive(Clone, Copy)]
pub enum Way {
    /// One page at a time.
    Singly,
    /// All pages as one range.
    AsRange,
}

impl Way {
    /// Both ways, with their names. The second is compared with the first one.
    pub const ALL: [(Way, &'static str); 2] = [(Way::Singly, "singly"), (Way::AsRange, "as range")];
}

/// What a round measures, in order.
pub const CHANGES: [&str; 3] = ["map", "update", "unmap"];

/// Counts frames.
#[derive(Clone, Copy)]
struct Counter {
    count: u64,
}

impl FrameSink for Counter {
    ghost use Rattle.x86_64_bench.specs.Counting.{counted};

    ghost with_frame = { λ counter frame. counted counter frame };

    fn take<S: PageSize>(&mut self, _frame: PhysFrame<S>)
        ensures { self.new ≡ counted self.old _frame }
    {
        self.count = self.count.wrapping_add(1);
    }
}

/// Maps all pages as a range, and returns the number of mapped pages.
fn map_as_range<S: PageSize, M: TableAccess + TablesIn<FourLevels>, A: FrameAllocator<Size4KiB>>(
    mapper: &mut M,
    allocator: &mut A,
    workload: Workload,
) -> u64
    requires { SupplyFits (M.hierarchy mapper.old) (A.supply allocator.old) }
    ensures { SupplyFits (M.hierarchy mapper.new) (A.supply allocator.new) }
{
    let (page, frame) = (workload.page::<S, FourLevels>(0), workload.frame::<S>(0));
    let count = u64::from(workload.pages);
    if !map_range_allowed(mapper, page, count, frame, flags(), flags()) {
        return 0;
    }
    match map_range(mapper, page, count, frame, flags(), flags(), allocator) {
        Ok(flush) => {
            flush.ignore();
            count
        }
        Err(error) => {
            let MapRangeErrorIn { mapped, why: _why } = error;
            let count = mapped.count();
            mapped.ignore();
            count
        }
    }
}

/// Sets the flags of all pages one by one, and returns the number of changed pages.
fn update_all<S: PageSize, M: TableAccess + TablesIn<FourLevels>>(
    mapper: &mut M,
    workload: Workload,
) -> u64
    requires { Valid (M.hierarchy mapper.old) }
    ensures { Valid (M.hierarchy mapper.new) }
{
    let mut updated = 0_u64;
    for k in 0..workload.pages {
        let done = update_page::<S, FourLevels, _>(mapper, workload, k);
        updated = updated.saturating_add(u64::from(done));
    }
    updated
}

/// Sets the flags of all pages as a range, and returns the number of changed pages.
fn update_as_range<S: PageSize, M: TableAccess + TablesIn<FourLevels>>(
    mapper: &mut M,
    workload: Workload,
) -> u64
    requires { Valid (M.hierarchy mapper.old) }
    ensures { Valid (M.hierarchy mapper.new) }
{
    let (page, count) = (workload.page::<S, FourLevels>(0), u64::from(workload.pages));
    if !range_allowed(mapper, page, count) || flags().has_address_bits() {
        return 0;
    }
    let (updated, flush) = update_flags_range(mapper, page, count, flags());
    flush.ignore();
    updated
}

/// Unmaps all pages as a range, and returns the number of unmapped pages.
fn unmap_as_range<S: PageSize, M: TableAccess + TablesIn<FourLevels>>(
    mapper: &mut M,
    workload: Workload,
) -> u64
    requires { Valid (M.hierarchy mapper.old) }
{
    let (page, count) = (workload.page::<S, FourLevels>(0), u64::from(workload.pages));
    if !range_allowed(mapper, page, count) {
        return 0;
    }
    let mut counter = Counter { count: 0 };
    unmap_range(mapper, page, count, &mut counter).ignore();
    counter.count
}

/// Maps all pages of a workload in a new hierarchy, changes their flags, and unmaps them. Returns `None` if the
/// hierarchy isn't valid.
pub fn measure_ranges<S: PageSize>(
    alloc: Global,
    clock: &impl CpuClock,
    workload: Workload,
    way: Way,
) -> io::Result<Option<[Part; 3]>> {
    let places = Access::Direct.places(alloc, workload.places())?;
    let mut pool = new_pool(alloc, &places)?;
    let mut memory = PhysMemory::new(alloc, workload.places())?;
    measure_in::<S, _>(alloc, clock, &mut memory, &mut pool, workload, way)
}

/// Does what [`measure_ranges`] does in an empty memory.
fn measure_in<S: PageSize, T: TableMemory>(
    alloc: Global,
    clock: &impl CpuClock,
    memory: &mut T,
    pool: &mut FramePool,
    workload: Workload,
    way: Way,
) -> io::Result<Option<[Part; 3]>> {
    let root = root();
    if !pool_fits_in::<FourLevels, _>(alloc, memory, root, pool)? {
        return Ok(None);
    }
    let mut mapper = MappedPageTableIn::<IdentityMapping, FourLevels, T>::new(
        memory,
        root,
        IdentityMapping,
    );
    let round = measure_changes::<S, _>(clock, &mut mapper, pool, workload, way)?;
    Ok(Some(round))
}

/// Maps all pages of a workload with a mapper, changes their flags, and unmaps them.
fn measure_changes<S: PageSize, M: TableAccess + TablesIn<FourLevels>>(
    clock: &impl CpuClock,
    mapper: &mut M,
    pool: &mut FramePool,
    workload: Workload,
    way: Way,
) -> io::Result<[Part; 3]>
    requires { SupplyFits (M.hierarchy mapper.old) pool.old.frames }
{
    let start = clock.thread_cpu_time()?;
    let count = match way {
        Way::Singly => map_all::<S, FourLevels, _, _>(mapper, pool, workload),
        Way::AsRange => map_as_range::<S, _, _>(mapper, pool, workload),
    };
    let map = Part {
        count,
        time: since(clock, start)?,
    };
    let start = clock.thread_cpu_time()?;
    let count = match way {
        Way::Singly => update_all::<S, _>(mapper, workload),
        Way::AsRange => update_as_range::<S, _>(mapper, workload),
    };
    let update = Part {
        count,
        time: since(clock, start)?,
    };
    let start = clock.thread_cpu_time()?;
    let count = match way {
        Way::Singly => unmap_all::<S, FourLevels, _>(mapper, workload),
        Way::AsRange => unmap_as_range::<S, _>(mapper, workload),
    };
    let unmap = Part {
        count,
        time: since(clock, start)?,
    };
    Ok([map, update, unmap])
}
