//! Lists of mappings.
use bitflags::Flags;
use x86_64::structures::paging::{PhysFrame, Size4KiB};
use x86_64::{IdentityMapping, LevelCount, MappingIn, TableMemory, VirtAddrIn, mappings_from};

/// The number of listed mappings, and the sum of all their contents.
#[derive(Clone, Copy)]
pub struct Listed {
    /// The number of mappings.
    pub count: u64,
    /// The sum.
    pub sum: u64,
}

/// The rights of a page that may be written and executed, but not by user code, as a number.
pub const SUPERVISOR_RIGHTS: u64 = 5;

/// Lists the first mappings below a root, at most a given number.
pub fn list_all<L: LevelCount, T: TableMemory>(
    memory: &T,
    root: PhysFrame<Size4KiB>,
    most: u32,
) -> Listed {
    let (mut count, mut sum) = (0_u64, 0_u64);
    let mut mappings = mappings_from(memory, &IdentityMapping, root, VirtAddrIn::<L>::zero());
    for _ in 0..most {
        if let Some(mapping) = mappings.next() {
            count = count.saturating_add(1);
            sum = sum.wrapping_add(sum_of(&mapping));
        }
    }
    Listed { count, sum }
}

/// Returns the sum of the contents of a mapping.
fn sum_of<L: LevelCount>(mapping: &MappingIn<L>) -> u64 {
    let rights = u64::from(mapping.rights.write)
        + 2 * u64::from(mapping.rights.user)
        + 4 * u64::from(mapping.rights.execute);
    let frame = mapping.frame.start_address().as_u64();
    mapping
        .start
        .as_u64()
        .wrapping_add(frame)
        .wrapping_add(mapping.size())
        .wrapping_add(mapping.flags.bits())
        .wrapping_add(rights)
}
