//! What most tests use: assertions as functions, so that the messages of failed ones are here once, for the values of all
//! tests, and imports.

pub use crate::images::{
    fill, fits, fits_recursive, flags_of, frame_at, page_at, pool_of, run_at_offset, run_flushed_on, run_over, run_recursive_on,
    set_word, word_at, ROOT, WORD_COUNT,
};
pub use crate::pagetab_engine::ending::{Ending, Fault};
pub use crate::test_reference::words::address;
pub use crate::test_reference::Answer::Done;
pub use crate::test_reference::PlainReply::{Answered, Cleaned};
pub use crate::test_reference::{Answer, PlainReply, Refusal, Translated};
pub use std::fmt::Debug;
pub use x86_64_paging::addr::VirtAddrIn;
pub use x86_64_paging::bitflags::Flags;
pub use x86_64_paging::mappers::mapped_page_table::MappedPageTableIn;
pub use x86_64_paging::mappers::recursive_page_table::RecursivePageTableIn;
pub use x86_64_paging::structures::paging::mapper::{
    FlagUpdateError, MappedFrame, MapperFlushAll, PageTableFrameMapping, UnmapError,
};
pub use x86_64_paging::structures::paging::page::PageIn;
pub use x86_64_paging::structures::paging::{
    MappedPageTable, OffsetPageTable, PageSize, PageTableFlags, PageTableIndex, PhysFrame, Size4KiB,
};
pub use x86_64_paging::support::AllocError;
pub use x86_64_paging::tables::phys_memory::Active;
pub use x86_64_paging::{
    pool_fits, pool_fits_57, pool_fits_recursive, pool_fits_recursive_57, run, run_flushed, Call, CallIn, FiveLevels, FlushItem,
    FlushRecorder, FourLevels, FramePlace, FramePool, IdentityMapping, LevelCount, LevelFiveFlags, MapperReply, NoLevelFive,
    PageReply, PhysAddr, PhysMemory, Reply, ReplyIn, SizeCallIn, VirtAddr,
};

/// Aborts unless two values are equal.
pub fn assert_equal<T: PartialEq + Debug>(found: T, wanted: T) {
    assert_eq!(found, wanted);
}

/// Aborts unless two values are equal, and prints the case that they belong to.
pub fn assert_equal_in<C: Debug, T: PartialEq + Debug>(case: C, found: T, wanted: T) {
    assert_eq!(found, wanted, "in {case:?}");
}

/// Returns the value of a result, or aborts if it is an error. A call has only one exit. With `?`, a test would have
/// a second exit that drops all it owns, and this would have to be proved as well.
pub fn unwrap<T, E>(answer: Result<T, E>) -> T {
    match answer {
        Ok(value) => value,
        Err(_) => panic!("an error where there must be a value"),
    }
}

/// Returns the value, or aborts if there is none.
pub fn unwrap_some<T>(found: Option<T>) -> T {
    match found {
        Some(value) => value,
        None => panic!("none where there must be a value"),
    }
}
