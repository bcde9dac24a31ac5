//! The names of this kernel's types, for four levels of page tables, or for five with the feature `five_levels`.

use x86_64_paging::kernel as x86_64;

#[cfg(not(feature = "five_levels"))]
mod names {
    use super::x86_64::structures::paging::PageTable;
    pub use super::x86_64::structures::paging::{OffsetPageTable, Page, RecursivePageTable};
    pub use super::x86_64::VirtAddr;

    pub const LEVELS: usize = 4;
    /// An address in the half of processes.
    pub const FIRST: VirtAddr = VirtAddr::new(0x4444_4444_0000);
    pub const HEAP: VirtAddr = VirtAddr::new(0x5555_0000_0000);
    /// The last page of the half of processes.
    pub const LAST: VirtAddr = VirtAddr::new(0x7fff_ffff_f000);

    pub fn root_mut<'a>(mapper: &'a mut OffsetPageTable) -> &'a mut PageTable {
        mapper.level_4_table_mut()
    }
}

#[cfg(feature = "five_levels")]
mod names {
    use super::x86_64::structures::paging::PageTable;
    pub use super::x86_64::structures::paging::{
        OffsetPageTable57 as OffsetPageTable, Page57 as Page, RecursivePageTable57 as RecursivePageTable,
    };
    pub use super::x86_64::VirtAddr57 as VirtAddr;

    pub const LEVELS: usize = 5;
    /// An address in the half of processes, which four levels don't have.
    pub const FIRST: VirtAddr = VirtAddr::new(0x12_4444_4444_0000);
    pub const HEAP: VirtAddr = VirtAddr::new(0x55_5555_0000_0000);
    /// The last page of the half of processes.
    pub const LAST: VirtAddr = VirtAddr::new(0xff_ffff_ffff_f000);

    pub fn root_mut<'a>(mapper: &'a mut OffsetPageTable) -> &'a mut PageTable {
        // SAFETY: the caller sets and clears an entry alone that names the root itself.
        unsafe { mapper.level_5_table_mut() }
    }
}

pub use names::*;

/// Returns the window of the root, if its entry at an index names itself: each index of the address is this one.
pub fn root_window(index: u64) -> VirtAddr {
    VirtAddr::new_truncate((0..LEVELS).fold(0, |number, _| 512 * number + index) * 4096)
}
