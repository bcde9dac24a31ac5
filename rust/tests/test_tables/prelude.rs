//! What most tests use: assertions as functions, so that the messages of failed ones are here once, and shorthands.

pub use std::fmt::Debug;
pub use x86_64_paging::addresses::addr::{align_down, align_up, PhysAddr, VirtAddr, VirtAddr57, VirtAddrIn};
pub use x86_64_paging::addresses::index::{PageOffset, PageTableIndex, PageTableLevel, PageTableLevel57};
pub use x86_64_paging::addresses::level_count::{FiveLevels, FourLevels, LevelCount};
pub use x86_64_paging::bitflags::Flags;
pub use x86_64_paging::pages::frame::{PfnNotValid, PhysFrame};
pub use x86_64_paging::pages::page::{Page, Page57, PageIn, PageSize, Size1GiB, Size2MiB, Size4KiB};
pub use x86_64_paging::pages::range::{Block, BlockRange, BlockRangeInclusive};
pub use x86_64_paging::tables::page_table::PageTableFlags;

/// Aborts unless two values are equal.
pub fn assert_equal<T: PartialEq + Debug>(found: T, wanted: T) {
    assert_eq!(found, wanted);
}

/// Aborts unless two values are equal, and prints the case that they belong to.
pub fn assert_equal_in<C: Debug, T: PartialEq + Debug>(case: C, found: T, wanted: T) {
    assert_eq!(found, wanted, "in {case:?}");
}

/// Returns the value of a result, or aborts if it is an error. A call has only one exit. With `?`, a test would have
/// a second exit that drops all it owns, and this would have to be proved as well.
pub fn unwrap<T, E>(answer: Result<T, E>) -> T {
    match answer {
        Ok(value) => value,
        Err(_) => panic!("an error where there must be a value"),
    }
}

/// Returns the value, or aborts if there is none.
pub fn unwrap_some<T>(found: Option<T>) -> T {
    match found {
        Some(value) => value,
        None => panic!("none where there must be a value"),
    }
}

/// Returns the page that contains a raw address.
pub fn page<S: PageSize, L: LevelCount>(raw: u64) -> PageIn<S, L> {
    PageIn::containing_address(VirtAddrIn::new_truncate(raw))
}

/// Returns the frame that contains a physical address.
pub fn frame<S: PageSize>(raw: u64) -> PhysFrame<S> {
    PhysFrame::containing_address(PhysAddr::new_truncate(raw))
}
