//! What most tests use: assertions as functions, so that the messages of failed ones are here once, for the values of all
//! tests, and imports.

pub use crate::world::{
    check_words, flags, frame, map, page, pool_of, set_words, walk, Frame, Word, World, PLACES, WORDS, WORDS_57,
};
pub use std::fmt::Debug;
pub use x86_64_paging::addresses::addr::VirtAddrIn;
pub use x86_64_paging::bitflags::Flags;
pub use x86_64_paging::pages::page::PageIn;
pub use x86_64_paging::structures::paging::mapper::{
    FlagUpdateError, MapToError, MappedFrame, MapperAllSizes, MapperFlush57, MapperFlushAll, TableAccess, TranslateResult,
    UnmapError,
};
pub use x86_64_paging::structures::paging::page_table::PageTableEntry;
pub use x86_64_paging::structures::paging::{
    MappedPageTable, MappedPageTable57, Mapper, Mapper57, Page, Page57, PageSize, PageTable, PageTableFlags, PageTableIndex,
    PhysFrame, Size1GiB, Size2MiB, Size4KiB, Translate, Translate57,
};
pub use x86_64_paging::support::AllocError;
pub use x86_64_paging::{
    page_walk, pool_fits, run, Call, Call57, CallIn, FiveLevels, FlushItem, FlushRecorder, FourLevels, FramePlace, FramePool,
    IdentityMapping, LentMemory, LevelCount, LevelFiveFlags, Mapping, NoLevelFive, PageReply, PhysAddr, PhysMemory, Reply, Reply57,
    ReplyIn, SizeCall, SizeCall57, SizeCallIn, TableMemory, Tables, TablesIn, VirtAddr, VirtAddr57,
};

/// Aborts unless two values are equal.
pub fn assert_equal<T: PartialEq + Debug>(found: T, wanted: T) {
    assert_eq!(found, wanted);
}

/// Aborts unless two values are equal, and prints the case that they belong to.
pub fn assert_equal_in<C: Debug, T: PartialEq + Debug>(case: C, found: T, wanted: T) {
    assert_eq!(found, wanted, "in {case:?}");
}

/// Returns the value of a result, or aborts if it is an error. A call has only one exit. With `?`, a test would have
/// a second exit that drops all it owns, and this would have to be proved as well.
pub fn unwrap<T, E>(answer: Result<T, E>) -> T {
    match answer {
        Ok(value) => value,
        Err(_) => panic!("an error where there must be a value"),
    }
}

/// Returns the value, or aborts if there is none.
pub fn unwrap_some<T>(found: Option<T>) -> T {
    match found {
        Some(value) => value,
        None => panic!("none where there must be a value"),
    }
}
