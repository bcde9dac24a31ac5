//! Calls of the library that take memory and change nothing.
use super::hoard_past;
use crate::prelude::*;
use x86_64_paging::structures::paging::MappedPageTable57;
use x86_64_paging::{is_valid_hierarchy, is_valid_hierarchy_57, is_valid_recursive, is_valid_recursive_57, PlacesRefusal};

/// A call that takes memory and changes nothing.
#[derive(Clone, Copy, Debug)]
enum Attempt {
    NewMemory,
    MemoryWithGaps,
    NewPool,
    Validity,
    Fit,
    RecursiveValidity,
    RecursiveFit,
    Validity57,
    Fit57,
    RecursiveValidity57,
    RecursiveFit57,
}

/// The places of a memory with gaps. A place is the index of a table in memory.
const PLACES: [u64; 16] = [1, 2, 3, 5, 8, 13, 21, 34, 55, 89, 144, 233, 377, 610, 987, 0x8_0000];

/// Calls, and blocks that have room from the start. For a call that grows twice, this is either none or the first
/// growth, that of a memory's numbers or of a pool's free frames.
static ATTEMPTS: [(Attempt, &[usize]); 14] = [
    (Attempt::NewMemory, &[]),
    (Attempt::NewMemory, &[16 * 8]),
    (Attempt::MemoryWithGaps, &[]),
    (Attempt::MemoryWithGaps, &[16 * 8]),
    (Attempt::NewPool, &[]),
    (Attempt::NewPool, &[4096 * 8]),
    (Attempt::Validity, &[]),
    (Attempt::Fit, &[]),
    (Attempt::RecursiveValidity, &[]),
    (Attempt::RecursiveFit, &[]),
    (Attempt::Validity57, &[]),
    (Attempt::Fit57, &[]),
    (Attempt::RecursiveValidity57, &[]),
    (Attempt::RecursiveFit57, &[]),
];

/// Creates a memory with gaps, and returns true if it has its places.
fn has_gaps() -> Result<bool, AllocError> {
    match PhysMemory::with_places(&PLACES) {
        Ok(memory) => Ok(memory.len() == PLACES.len()),
        Err(PlacesRefusal::Alloc(refusal)) => Err(refusal),
        Err(PlacesRefusal::NotIncreasing) => Ok(false),
    }
}

/// Creates a pool, and returns true if it serves its last frame.
fn serves() -> Result<bool, AllocError> {
    let mut pool = FramePool::new(4096)?;
    Ok(pool.try_add(frame_at(0xfff_000)).is_ok())
}

/// Makes a call, and returns true if the result is the expected one: the root has no words, or only its entry for
/// itself.
fn make(attempt: Attempt, memory: &PhysMemory, walked: &PhysMemory, pool: &FramePool) -> Result<bool, AllocError> {
    let (root, index) = (frame_at(ROOT), PageTableIndex::new(510));
    match attempt {
        Attempt::NewMemory => Ok(PhysMemory::new(16)?.len() == 16),
        Attempt::MemoryWithGaps => has_gaps(),
        Attempt::NewPool => serves(),
        Attempt::Validity => is_valid_hierarchy(memory, &IdentityMapping, root),
        Attempt::Fit => pool_fits(memory, &IdentityMapping, root, pool),
        Attempt::RecursiveValidity => is_valid_recursive(walked, root, index),
        Attempt::RecursiveFit => pool_fits_recursive(walked, root, index, pool),
        Attempt::Validity57 => is_valid_hierarchy_57(memory, &IdentityMapping, root),
        Attempt::Fit57 => pool_fits_57(memory, &IdentityMapping, root, pool),
        Attempt::RecursiveValidity57 => is_valid_recursive_57(walked, root, index),
        Attempt::RecursiveFit57 => pool_fits_recursive_57(walked, root, index, pool),
    }
}

#[test]
fn memories_and_pools_are_made_and_tested_where_there_is_room() {
    let memory = unwrap(PhysMemory::new(4096));
    let mut walked = unwrap(PhysMemory::new(4096));
    set_word(&mut walked, ROOT, 510, 0x1003);
    let pool = pool_of(4096, &[0x2000, 0x3000, 0x4000]);
    for (attempt, room) in &ATTEMPTS {
        let hoard = hoard_past(room);
        let refused = make(*attempt, &memory, &walked, &pool);
        drop(hoard);
        assert_equal_in((*attempt, *room), refused, Err(AllocError));
        let made = make(*attempt, &memory, &walked, &pool);
        assert_equal_in(*attempt, made, Ok(true));
    }
}

/// Asserts that the test of a mapper of a type, made once this function finds the hierarchy valid, is refused if there
/// is no memory.
macro_rules! check_mapper {
    ($is_valid:ident, $Mapper:ident) => {
        let root = frame_at(ROOT);
        let mut memory = unwrap(PhysMemory::new(4096));
        let is_valid = $is_valid(&memory, &IdentityMapping, root);
        assert!(unwrap(is_valid));
        let mapper = $Mapper::new(&mut memory, root, IdentityMapping);
        let hoard = hoard_past(&[]);
        let refused = mapper.is_valid();
        drop(hoard);
        let answers = [refused, mapper.is_valid()];
        assert_equal(answers, [Err(AllocError), Ok(true)]);
    };
}

#[test]
fn mappers_are_tested_where_there_is_room() {
    check_mapper!(is_valid_hierarchy, MappedPageTable);
    check_mapper!(is_valid_hierarchy_57, MappedPageTable57);
    // More than there is.
    let refusal = PhysMemory::new(u64::MAX).err();
    assert_equal(refusal, Some(AllocError));
    let refusal = FramePool::new(u64::MAX).err();
    assert_equal(refusal, Some(AllocError));
}
