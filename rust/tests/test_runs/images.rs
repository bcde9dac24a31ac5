//! Memories and pools for tests, runs on them, and their contents afterwards.

use crate::more::MoreOfVec;
use x86_64_paging::support::Vec;

use crate::prelude::*;

/// The number of words of a table.
pub const WORD_COUNT: u16 = 512;

/// The address of the root's frame.
pub const ROOT: u64 = 0x1000;

/// Returns the frame of a size that contains an address.
pub fn frame_at<S: PageSize>(address: u64) -> PhysFrame<S> {
    PhysFrame::containing_address(PhysAddr::new_truncate(address))
}

/// Returns the page of a size that contains an address, for any number of levels.
pub fn page_at<S: PageSize, L: LevelCount>(address: u64) -> PageIn<S, L> {
    PageIn::containing_address(VirtAddrIn::new_truncate(address))
}

/// Returns the flags with these bits, which may include address bits.
pub fn flags_of(bits: u64) -> PageTableFlags {
    PageTableFlags::from_bits_retain(bits)
}

/// Sets the word at an index of the table in a frame.
pub fn set_word(memory: &mut PhysMemory, frame: u64, index: u16, word: u64) {
    let table = unwrap_some(memory.table_mut(FramePlace::new(frame / 0x1000)));
    table[PageTableIndex::new_truncate(index)].set_word(word);
}

/// Sets all bits of the words of the table in a frame.
pub fn fill(memory: &mut PhysMemory, frame: u64) {
    for index in 0..WORD_COUNT {
        set_word(memory, frame, index, u64::MAX);
    }
}

/// Returns the word at an index of the table in a frame.
pub fn word_at(memory: &PhysMemory, frame: u64, index: u16) -> u64 {
    let table = unwrap_some(memory.table(FramePlace::new(frame / 0x1000)));
    table[PageTableIndex::new_truncate(index)].word()
}

/// Creates a pool of free frames, with numbers below a limit.
pub fn pool_of(limit: u64, frames: &[u64]) -> FramePool {
    let mut pool = unwrap(FramePool::new(limit));
    for frame in frames {
        unwrap(pool.try_add(frame_at(*frame)));
    }
    pool
}

/// Tests whether a hierarchy with this number of levels is valid and a pool fits it.
fn pool_fits_in<L: LevelCount>(memory: &PhysMemory, root: PhysFrame<Size4KiB>, pool: &FramePool) -> Result<bool, AllocError> {
    if L::LEVELS == 4 {
        pool_fits(memory, &IdentityMapping, root, pool)
    } else {
        pool_fits_57(memory, &IdentityMapping, root, pool)
    }
}

/// This for a recursive index.
fn pool_fits_recursive_in<L: LevelCount>(
    memory: &PhysMemory,
    root: PhysFrame<Size4KiB>,
    index: PageTableIndex,
    pool: &FramePool,
) -> Result<bool, AllocError> {
    if L::LEVELS == 4 {
        pool_fits_recursive(memory, root, index, pool)
    } else {
        pool_fits_recursive_57(memory, root, index, pool)
    }
}

/// Returns whether a hierarchy with this number of levels is valid and a pool fits it.
pub fn fits<L: LevelCount>(memory: &PhysMemory, root: PhysFrame<Size4KiB>, pool: &FramePool) -> bool {
    unwrap(pool_fits_in::<L>(memory, root, pool))
}

/// Returns whether a hierarchy with this number of levels is valid for a recursive index and a pool fits it.
pub fn fits_recursive<L: LevelCount>(
    memory: &PhysMemory,
    root: PhysFrame<Size4KiB>,
    index: PageTableIndex,
    pool: &FramePool,
) -> bool {
    let ran = pool_fits_recursive_in::<L>(memory, root, index, pool);
    unwrap(ran)
}

/// Executes calls with a mapper over a frame mapping. The mapper is then dropped, and the owner of the memory and of
/// the pool knows that they fit again.
pub fn run_over<P: PageTableFrameMapping, L: LevelCount, P5: LevelFiveFlags<L>>(
    memory: &mut PhysMemory,
    root: PhysFrame<Size4KiB>,
    mapping: P,
    pool: &mut FramePool,
    calls: &[CallIn<L, P5>],
    replies: &mut Vec<ReplyIn<L>>,
) -> Result<(), AllocError> {
    let mut mapper = MappedPageTableIn::<P, L>::new(memory, root, mapping);
    run(&mut mapper, pool, calls, replies)
}

/// Executes calls with a mapper of a memory that is mapped at an offset, like [`run_over`].
pub fn run_at_offset(
    memory: &mut PhysMemory,
    root: PhysFrame<Size4KiB>,
    phys_offset: VirtAddr,
    pool: &mut FramePool,
    calls: &[Call],
    replies: &mut Vec<Reply>,
) -> Result<(), AllocError> {
    let mut mapper = OffsetPageTable::new(memory, root, phys_offset);
    run(&mut mapper, pool, calls, replies)
}

/// Executes calls with a mapper that reaches tables through the root's entry for itself, like [`run_over`]. That
/// entry stays.
pub fn run_recursive_on<L: LevelCount, P5: LevelFiveFlags<L>>(
    memory: &mut PhysMemory,
    root: PhysFrame<Size4KiB>,
    index: PageTableIndex,
    pool: &mut FramePool,
    calls: &[CallIn<L, P5>],
    replies: &mut Vec<ReplyIn<L>>,
) -> Result<(), AllocError> {
    let active = Active::<L>::new(memory, root);
    let mut mapper = RecursivePageTableIn::<L>::new_unchecked(active, index);
    run(&mut mapper, pool, calls, replies)
}

/// Executes calls with a mapper over the identity mapping, like [`run_over`], and records their flushes.
pub fn run_flushed_on(
    memory: &mut PhysMemory,
    root: PhysFrame<Size4KiB>,
    pool: &mut FramePool,
    calls: &[Call],
    replies: &mut Vec<Reply>,
    recorder: &mut FlushRecorder,
) -> Result<(), AllocError> {
    let mut mapper = MappedPageTable::new(memory, root, IdentityMapping);
    run_flushed(&mut mapper, pool, calls, replies, recorder)
}
