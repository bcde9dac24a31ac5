//! Lists what page tables map.

use crate::more::CollectIn;

use crate::more::MoreOfVec;
use x86_64_paging::support::Vec;

use x86_64_paging::structures::paging::{PhysFrame, Size4KiB};
use x86_64_paging::support::AllocError;
use x86_64_paging::{mappings, regions, IdentityMapping, Mapping, Region, TableMemory};

/// Lists all mappings below a root.
pub fn list_all<T: TableMemory>(memory: &T, root: PhysFrame<Size4KiB>) -> Result<Vec<Mapping>, AllocError> {
    mappings(memory, &IdentityMapping, root).collect_in()
}

/// Returns the first region that can be both written and executed, or `None` if there is none.
pub fn writable_code<T: TableMemory>(memory: &T, root: PhysFrame<Size4KiB>) -> Option<Region> {
    for region in regions(memory, &IdentityMapping, root) {
        if region.rights.write && region.rights.execute {
            return Some(region);
        }
    }
    None
}
