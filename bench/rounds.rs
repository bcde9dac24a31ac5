//! One round: all pages are mapped in a new hierarchy, translated, listed and unmapped, and the hierarchy is cleaned
//! up.
ghost use Rattle.std.specs.Prelude.{◌≡◌, ◌↔◌, IfOk, IsTrue};
ghost use Rattle.x86_64_model.specs.Pool.{serves_below};
ghost use Rattle.x86_64_model.specs.Memory.{identity_places};
ghost use Rattle.x86_64_model.specs.Hierarchy.{◌laid_in◌, Valid, SupplyFits, MayCleanUp, PoolFits};
ghost use Rattle.x86_64_mappers.specs.Layouts.{direct_at};

use crate::listing::list_all;
use crate::page_calls::{finds_page, map_page, unmap_page};
use crate::workload::Workload;
use bitflags::Flags;
use std::alloc::{AllocError, Global};
use std::io;
use std::time::{CpuClock, Duration};
use x86_64::structures::paging::mapper::{MappedPageTableIn, RecursivePageTable};
use x86_64::structures::paging::{
    FrameAllocator, PageSize, PageTable, PageTableFlags, PageTableIndex, PhysFrame, Size4KiB,
};
use x86_64::{
    ActiveMemory, FiveLevels, FourLevels, FramePlace, FramePool, IdentityMapping, LentMemory,
    LevelCount, PhysAddr, PhysMemory, TableMemory, TablesIn, pool_fits, pool_fits_57,
    pool_fits_recursive,
};
use x86_64_mappers::calls::{TableAccess, clean_up};

/// The number of times that all pages are translated in a round.
const TRANSLATIONS: u64 = 10;

/// The index of the root's entry for itself, which no page has.
const RECURSIVE_INDEX: u16 = 511;

/// The place of the root, which is also its frame's number. A place is the index of a table in memory.
const ROOT: u64 = 1;

/// The mapper of a round.
#[derive(Clone, Copy)]
pub enum Access {
    /// The mapper that finds tables by their frames.
    Direct,
    /// This mapper over tables that their owner lends.
    Lent,
    /// This mapper in a memory without every second place.
    Sparse,
    /// This mapper with five levels of page tables.
    FiveLevels,
    /// The mapper that reaches tables through the root's entry for itself.
    Recursive,
}

impl Access {
    /// All mappers, with their names. The others are compared with the first one.
    pub const ALL: [(Access, &'static str); 5] = [
        (Access::Direct, "direct"),
        (Access::Lent, "lent"),
        (Access::Sparse, "sparse"),
        (Access::FiveLevels, "direct5"),
        (Access::Recursive, "recursive"),
    ];

    /// Returns the numbers of `count` places: the first ones, or every second one from 1 on.
    pub fn places(self, alloc: Global, count: u64) -> Result<Vec<u64>, AllocError> {
        let mut places = Vec::new(alloc);
        for k in 0..count {
            places.push(match self {
                Access::Sparse => k.wrapping_mul(2).wrapping_add(1),
                Access::Direct | Access::Lent | Access::FiveLevels | Access::Recursive => k,
            })?;
        }
        Ok(places)
    }
}

/// Maps all pages, and returns the number of mapped pages.
pub fn map_all<
    S: PageSize,
    L: LevelCount,
    M: TableAccess + TablesIn<L>,
    A: FrameAllocator<Size4KiB>,
>(mapper: &mut M, allocator: &mut A, workload: Workload) -> u64
    requires { SupplyFits (M.hierarchy mapper.old) (A.supply allocator.old) }
    ensures { SupplyFits (M.hierarchy mapper.new) (A.supply allocator.new) }
{
    let mut mapped = 0_u64;
    for k in 0..workload.pages {
        let done = map_page::<S, L, _, _>(mapper, workload, k, allocator);
        mapped = mapped.saturating_add(u64::from(done));
    }
    mapped
}

/// Unmaps all pages, and returns the number of unmapped pages.
pub fn unmap_all<S: PageSize, L: LevelCount, M: TableAccess + TablesIn<L>>(
    mapper: &mut M,
    workload: Workload,
) -> u64
    requires { Valid (M.hierarchy mapper.old) }
    ensures { Valid (M.hierarchy mapper.new) }
{
    let mut unmapped = 0_u64;
    for k in 0..workload.pages {
        let done = unmap_page::<S, L, _>(mapper, workload, k);
        unmapped = unmapped.saturating_add(u64::from(done));
    }
    unmapped
}

/// Translates all pages in an order ten times, and returns the number of times that a page was translated to its
/// frame.
fn translate_all<S: PageSize, L: LevelCount, M: TableAccess + TablesIn<L>>(
    mapper: &M,
    workload: Workload,
    order: &[u32],
) -> u64
    requires { Valid (M.hierarchy mapper.now) }
{
    let mut found = 0_u64;
    for _ in 0..TRANSLATIONS {
        found = found.saturating_add(translate_once::<S, L, _>(mapper, workload, order));
    }
    found
}

/// Translates all pages in an order, and returns the number of pages that are translated to their frames.
fn translate_once<S: PageSize, L: LevelCount, M: TableAccess + TablesIn<L>>(
    mapper: &M,
    workload: Workload,
    order: &[u32],
) -> u64
    requires { Valid (M.hierarchy mapper.now) }
{
    let mut found = 0_u64;
    for k in order {
        let done = finds_page::<S, L, _>(mapper, workload, *k);
        found = found.saturating_add(u64::from(done));
    }
    found
}

/// What a round measures, in order. The clean up of the tables that the unmaps left is counted by the returned frames.
/// Last is what isn't measured, the number of frames that the new tables took.
pub const OPERATIONS: [&str; 6] = ["map", "translate", "list", "unmap", "clean up", "tables"];

/// The number of times that an operation was done, and the total time.
#[derive(Clone, Copy)]
pub struct Part {
    /// The number of times that the operation was done and succeeded.
    pub count: u64,
    /// The total time.
    pub time: Duration,
}

impl Part {
    /// Creates the part of what isn't measured.
    fn count_of(count: usize) -> Part {
        let (count, time) = (count as u64, Duration::ZERO);
        Part { count, time }
    }
}

/// Maps and then translates all pages of a workload, which have one size, with a mapper.
fn measure_maps<S: PageSize, L: LevelCount, M: TableAccess + TablesIn<L>>(
    clock: &impl CpuClock,
    mapper: &mut M,
    pool: &mut FramePool,
    workload: Workload,
    order: &[u32],
) -> io::Result<(Part, Part)>
    requires { SupplyFits (M.hierarchy mapper.old) pool.old.frames }
{
    let start = clock.thread_cpu_time()?;
    let count = map_all::<S, L, _, _>(mapper, pool, workload);
    let map = Part {
        count,
        time: since(clock, start)?,
    };
    let start = clock.thread_cpu_time()?;
    let count = translate_all::<S, L, _>(mapper, workload, order);
    let translate = Part {
        count,
        time: since(clock, start)?,
    };
    Ok((map, translate))
}

/// Lists the pages of a workload.
fn measure_list<S: PageSize, L: LevelCount, T: TableMemory>(
    clock: &impl CpuClock,
    memory: &T,
    workload: Workload,
) -> io::Result<Part> {
    let start = clock.thread_cpu_time()?;
    let listed = list_all::<L, _>(memory, root(), workload.pages);
    let time = since(clock, start)?;
    let count = if listed.sum == workload.sum::<S>() {
        listed.count
    } else {
        0
    };
    Ok(Part { count, time })
}

/// Unmaps all pages of a workload, which have one size, with a mapper.
fn measure_unmap<S: PageSize, L: LevelCount, M: TableAccess + TablesIn<L>>(
    clock: &impl CpuClock,
    mapper: &mut M,
    workload: Workload,
) -> io::Result<Part>
    requires { Valid (M.hierarchy mapper.old) }
{
    let start = clock.thread_cpu_time()?;
    let count = unmap_all::<S, L, _>(mapper, workload);
    let time = since(clock, start)?;
    Ok(Part { count, time })
}

/// Returns the processor time since a start.
pub fn since(clock: &impl CpuClock, start: Duration) -> io::Result<Duration> {
    Ok(clock.thread_cpu_time()?.saturating_sub(start))
}

/// Cleans up with a mapper.
fn measure_clean_up<L: LevelCount, M: TableAccess + TablesIn<L>>(
    clock: &impl CpuClock,
    mapper: &mut M,
    pool: &mut FramePool,
) -> io::Result<Part>
    requires { MayCleanUp (M.hierarchy mapper.old) (serves_below pool.old.limit) pool.old.frames }
{
    let free = pool.len();
    let start = clock.thread_cpu_time()?;
    clean_up::<L, _, _>(mapper, pool);
    let time = since(clock, start)?;
    let count = pool.len().saturating_sub(free) as u64;
    Ok(Part { count, time })
}

/// Does a round with pages of a size with a mapper, in a new hierarchy. Returns `None` if the hierarchy isn't valid.
pub fn measure<S: PageSize>(
    alloc: Global,
    clock: &impl CpuClock,
    access: Access,
    workload: Workload,
) -> io::Result<Option<[Part; 6]>> {
    let places = access.places(alloc, workload.places())?;
    let mut pool = new_pool(alloc, &places)?;
    let order = workload.shuffled(alloc)?;
    if let Access::Lent = access {
        let mut tables = empty_tables(alloc, places.len())?;
        let mut memory = LentMemory::new(&mut tables);
        let (memory, pool) = (&mut memory, &mut pool);
        return measure_direct::<S, FourLevels, _>(alloc, clock, memory, pool, workload, &order);
    }
    let Ok(mut memory) = PhysMemory::with_places(alloc, &places) else {
        return Ok(None);
    };
    let (memory, pool) = (&mut memory, &mut pool);
    match access {
        Access::FiveLevels => {
            measure_direct::<S, FiveLevels, _>(alloc, clock, memory, pool, workload, &order)
        }
        Access::Recursive => measure_recursive::<S>(alloc, clock, memory, pool, workload, &order),
        _ => measure_direct::<S, FourLevels, _>(alloc, clock, memory, pool, workload, &order),
    }
}

/// Creates `count` empty tables.
fn empty_tables(alloc: Global, count: usize) -> Result<Vec<PageTable>, AllocError> {
    let mut tables = Vec::with_capacity(alloc, count)?;
    for _ in 0..count {
        tables.push(PageTable::new())?;
    }
    Ok(tables)
}

/// Returns true if the words below a root are a valid hierarchy of `L` levels, and a pool fits it.
///
/// # Errors
///
/// `AllocError` if memory allocation fails.
pub fn pool_fits_in<L: LevelCount, T: TableMemory>(
    alloc: Global,
    memory: &T,
    root: PhysFrame<Size4KiB>,
    pool: &FramePool,
) -> Result<bool, AllocError>
    ensures { let layout = direct_at L.LEVELS identity_places root in
        let serves = serves_below pool.now.limit in
        IfOk result (λ fits. IsTrue fits
        ↔ PoolFits (layout laid_in T.tables memory.now) serves pool.now.frames) }
{
    if L::LEVELS == 4 {
        pool_fits(alloc, memory, &IdentityMapping, root, pool)
    } else {
        pool_fits_57(alloc, memory, &IdentityMapping, root, pool)
    }
}

/// Does a round with the mapper of `L` levels that finds tables by their frames.
fn measure_direct<S: PageSize, L: LevelCount, T: TableMemory>(
    alloc: Global,
    clock: &impl CpuClock,
    memory: &mut T,
    pool: &mut FramePool,
    workload: Workload,
    order: &[u32],
) -> io::Result<Option<[Part; 6]>> {
    let root = root();
    if !pool_fits_in::<L, _>(alloc, memory, root, pool)? {
        return Ok(None);
    }
    let free = pool.len();
    let mut mapper = MappedPageTableIn::<IdentityMapping, L, T>::new(memory, root, IdentityMapping);
    let (map, translate) = measure_maps::<S, L, _>(clock, &mut mapper, pool, workload, order)?;
    drop(mapper);
    let tables = Part::count_of(free.saturating_sub(pool.len()));
    let list = measure_list::<S, L, T>(clock, memory, workload)?;
    if !pool_fits_in::<L, _>(alloc, memory, root, pool)? {
        return Ok(None);
    }
    let mut mapper = MappedPageTableIn::<IdentityMapping, L, T>::new(memory, root, IdentityMapping);
    let unmap = measure_unmap::<S, L, _>(clock, &mut mapper, workload)?;
    drop(mapper);
    if !pool_fits_in::<L, _>(alloc, memory, root, pool)? {
        return Ok(None);
    }
    let mut mapper = MappedPageTableIn::<IdentityMapping, L, T>::new(memory, root, IdentityMapping);
    let clean_up = measure_clean_up::<L, _>(clock, &mut mapper, pool)?;
    Ok(Some([map, translate, list, unmap, clean_up, tables]))
}

/// Writes the root's entry for itself, and does a round with the mapper that reaches tables through it.
fn measure_recursive<S: PageSize>(
    alloc: Global,
    clock: &impl CpuClock,
    memory: &mut PhysMemory,
    pool: &mut FramePool,
    workload: Workload,
    order: &[u32],
) -> io::Result<Option<[Part; 6]>> {
    let (root, index) = (root(), PageTableIndex::new(RECURSIVE_INDEX));
    write_self_entry(memory, index);
    if !pool_fits_recursive(alloc, memory, root, index, pool)? {
        return Ok(None);
    }
    let free = pool.len();
    let mut mapper = RecursivePageTable::new_unchecked(ActiveMemory::new(memory, root), index);
    let (map, translate) = measure_maps::<S, FourLevels, _>(
        clock,
        &mut mapper,
        pool,
        workload,
        order,
    )?;
    drop(mapper);
    let tables = Part::count_of(free.saturating_sub(pool.len()));
    let list = measure_list::<S, FourLevels, _>(clock, memory, workload)?;
    if !pool_fits_recursive(alloc, memory, root, index, pool)? {
        return Ok(None);
    }
    let mut mapper = RecursivePageTable::new_unchecked(ActiveMemory::new(memory, root), index);
    let unmap = measure_unmap::<S, FourLevels, _>(clock, &mut mapper, workload)?;
    drop(mapper);
    if !pool_fits_recursive(alloc, memory, root, index, pool)? {
        return Ok(None);
    }
    let mut mapper = RecursivePageTable::new_unchecked(ActiveMemory::new(memory, root), index);
    let clean_up = measure_clean_up::<FourLevels, _>(clock, &mut mapper, pool)?;
    Ok(Some([map, translate, list, unmap, clean_up, tables]))
}

/// Makes the root's entry at an index name the root.
fn write_self_entry(memory: &mut PhysMemory, index: PageTableIndex) {
    if let Some(table) = memory.table_mut(FramePlace::new(ROOT)) {
        let flags = PageTableFlags::PRESENT.union(PageTableFlags::WRITABLE);
        table[index].set_addr(root().start_address(), flags);
    }
}

/// Returns the root's frame.
pub fn root() -> PhysFrame<Size4KiB> {
    frame_numbered(ROOT)
}

/// Returns the 4KiB frame with a number, modulo 2^40.
fn frame_numbered(number: u64) -> PhysFrame<Size4KiB> {
    PhysFrame::containing_address(PhysAddr::new_truncate(number.wrapping_mul(4096)))
}

/// Creates a pool of the frames at all places after the root's.
pub fn new_pool(alloc: Global, places: &[u64]) -> Result<FramePool, AllocError> {
    let limit = places.last().copied().unwrap_or(0).saturating_add(1);
    let mut pool = FramePool::new(alloc, limit)?;
    for number in places {
        if *number > ROOT {
            // No frame is refused, since each is in range and added once.
            let _added = pool.try_add(frame_numbered(*number));
        }
    }
    Ok(pool)
}
