//! What tests by hand share: memories and pools that they begin with, texts, and imports.

pub use crate::prelude::*;
pub use x86_64_paging::addresses::addr::{PhysAddrNotValid, VirtAddr57NotValid, VirtAddrNotValid};
pub use x86_64_paging::pages::page::{AddressNotAligned, NotGiantPageSize, PageRangeInclusive};
pub use x86_64_paging::support::AllocError;
pub use x86_64_paging::tables::frame_alloc::{FrameAllocator, FrameDeallocator, FramePool, FrameStore, LentPool, OwnFrames};
pub use x86_64_paging::tables::page_table::{FrameError, PageTable, PageTableEntry};
pub use x86_64_paging::tables::page_tables::parent_flags;
pub use x86_64_paging::tables::phys_memory::{
    Active, ActiveMemory, FramePlace, FrameSegment, IdentityMapping, LentMemory, PageTableFrameMapping, PhysMemory, PlacesRefusal,
    SegmentMapping, ShiftMapping, TableMemory,
};
pub use x86_64_paging::tables::tokens::{FlushItem, FlushRecorder, MapperFlushIn};

/// Returns the 4KiB frame that contains an address, of which the low 52 bits count.
pub fn frame_at(address: u64) -> PhysFrame<Size4KiB> {
    frame(address)
}

/// Sets words of a memory, each given as its frame, its index and its value, as in the lines of `pagetab`.
pub fn set_words<T: TableMemory>(memory: &mut T, words: &[u64]) {
    for word in words.chunks_exact(3) {
        if let [frame, index, word] = word {
            let table = unwrap_some(memory.table_mut(FramePlace::new(*frame / 0x1000)));
            table[PageTableIndex::new_truncate((*index % 512) as u16)].set_word(*word);
        }
    }
}

/// Creates a memory of a number of places with words. A place is the index of a table in memory.
pub fn memory_of(places: u64, words: &[u64]) -> PhysMemory {
    let mut memory = unwrap(PhysMemory::new(places));
    set_words(&mut memory, words);
    memory
}

/// Creates a pool with a limit and with frames, given by their start addresses.
pub fn pool_with(limit: u64, frames: &[u64]) -> FramePool {
    let mut pool = unwrap(FramePool::new(limit));
    for frame in frames {
        unwrap(pool.try_add(frame_at(*frame)));
    }
    pool
}

/// Asserts that a value has this Debug text.
pub fn assert_text<T: Debug>(value: &T, wanted: &str) {
    assert_eq!(format!("{value:?}"), wanted);
}
