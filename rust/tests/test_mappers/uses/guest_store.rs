//! Does what a guest's processor does before it stores something.

use x86_64_paging::access::{access_and_mark, Access, AccessKind, Controls, Fault};
use x86_64_paging::structures::paging::{PhysFrame, Size4KiB};
use x86_64_paging::{IdentityMapping, PhysAddr, TableMemory, VirtAddr};

/// Returns where code of a guest at privilege level 3 stores something, or the fault that the guest gets. The entries on the way are
/// marked as its processor marks them.
///
/// Requires at most 52 bits of physical addresses.
pub fn store_by_user<T: TableMemory>(
    memory: &mut T,
    root: PhysFrame<Size4KiB>,
    addr: VirtAddr,
    controls: &Controls,
) -> Result<PhysAddr, Fault> {
    let access = Access { kind: AccessKind::Write, user: true };
    let result = access_and_mark(memory, &IdentityMapping, root, addr, access, controls);
    result
}
