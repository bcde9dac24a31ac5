//! Page walks and accesses at the addresses of mapped pages.

use crate::rounds::{self, Part, map_all, new_pool, pool_fits_in, root, since};
use crate::workload::Workload;
use std::alloc::Global;
use std::io;
use std::time::CpuClock;
use x86_64::structures::paging::mapper::MappedPageTableIn;
use x86_64::structures::paging::{PageSize, PhysFrame, Size4KiB};
use x86_64::{FourLevels, FramePool, IdentityMapping, PhysMemory, TableMemory, page_walk};
use x86_64_access::{Access, AccessKind, Controls, access};

/// How an address is looked up.
#[derive(Clone, Copy)]
pub enum Lookup {
    /// By a page walk, whose rights are then looked at.
    PageWalk,
    /// As a processor's access.
    Access,
}

impl Lookup {
    /// Both ways, with their names. The second is compared with the first one.
    pub const ALL: [(Lookup, &'static str); 2] = [
        (Lookup::PageWalk, "page walk"),
        (Lookup::Access, "access"),
    ];
}

/// What a round measures: a supervisor's write to each page.
pub const LOOKUPS: [&str; 1] = ["write"];

/// The processor's settings.
const CONTROLS: Controls = Controls {
    write_protect: true,
    no_execute: true,
    smep: true,
    smap: true,
    ac: false,
    physical_bits: 46,
    no_1gib_pages: false,
    global_reserved: false,
};

/// Returns the number of pages to whose frames a page walk leads, with the right to write.
fn walk_all<S: PageSize, T: TableMemory>(
    memory: &T,
    root: PhysFrame<Size4KiB>,
    workload: Workload,
) -> u64 {
    let mut found = 0_u64;
    for k in 0..workload.pages {
        let addr = workload.page::<S, FourLevels>(k).start_address();
        let frame = workload.frame::<S>(k).start_address();
        if let Some(walked) = page_walk(memory, &IdentityMapping, root, addr) {
            found = found.saturating_add(u64::from(walked.write & (walked.address == frame)));
        }
    }
    found
}

/// Returns the number of pages at whose frames a supervisor's write arrives.
fn access_all<S: PageSize, T: TableMemory>(
    memory: &T,
    root: PhysFrame<Size4KiB>,
    workload: Workload,
) -> u64 {
    let write = Access {
        kind: AccessKind::Write,
        user: false,
    };
    let mut found = 0_u64;
    for k in 0..workload.pages {
        let addr = workload.page::<S, FourLevels>(k).start_address();
        let frame = workload.frame::<S>(k).start_address();
        if let Ok(address) = access(memory, &IdentityMapping, root, addr, write, &CONTROLS) {
            found = found.saturating_add(u64::from(address == frame));
        }
    }
    found
}

/// Maps all pages of a workload in a new hierarchy, and looks their addresses up. Returns `None` if the hierarchy
/// isn't valid.
pub fn measure_lookups<S: PageSize>(
    alloc: Global,
    clock: &impl CpuClock,
    workload: Workload,
    lookup: Lookup,
) -> io::Result<Option<[Part; 1]>> {
    let places = rounds::Access::Direct.places(alloc, workload.places())?;
    let mut pool = new_pool(alloc, &places)?;
    let mut memory = PhysMemory::new(alloc, workload.places())?;
    if !map_in::<S, _>(alloc, &mut memory, &mut pool, workload)? {
        return Ok(None);
    }
    let start = clock.thread_cpu_time()?;
    let count = match lookup {
        Lookup::PageWalk => walk_all::<S, _>(&memory, root(), workload),
        Lookup::Access => access_all::<S, _>(&memory, root(), workload),
    };
    Ok(Some([Part {
        count,
        time: since(clock, start)?,
    }]))
}

/// Maps all pages of a workload in an empty memory. Returns false if the hierarchy isn't valid.
fn map_in<S: PageSize, T: TableMemory>(
    alloc: Global,
    memory: &mut T,
    pool: &mut FramePool,
    workload: Workload,
) -> io::Result<bool> {
    let root = root();
    if !pool_fits_in::<FourLevels, _>(alloc, memory, root, pool)? {
        return Ok(false);
    }
    let mut mapper = MappedPageTableIn::<IdentityMapping, FourLevels, T>::new(
        memory,
        root,
        IdentityMapping,
    );
    map_all::<S, FourLevels, _, _>(&mut mapper, pool, workload);
    Ok(true)
}
