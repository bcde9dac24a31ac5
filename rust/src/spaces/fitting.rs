//! Tests of whether address spaces share what they should, and whether a pool fits them.

use crate::addresses::level_count::LevelCount;
use crate::spaces::space::{GroupedSpace, SharedIndices, Space};
use crate::spaces::space_list::{owner, owns, Groups, Roots, Sharing, SpaceList};
use crate::support::AllocError;
use crate::tables::frame_alloc::FramePool;
use crate::tables::phys_memory::{clear_marks, count_set, HierarchyTest, PageTableFrameMapping, TableMemory, FRAME_COUNT};
use core::marker::PhantomData;

/// Returns whether hierarchies are address spaces that share the tables below some indices, and a pool fits each.
///
/// They are if the roots are distinct, each hierarchy is valid, for its recursive index if it has one, all roots have the same
/// words at the shared indices, no table is in two hierarchies but those below these indices, and the pool fits each as defined
/// for [`pool_fits`](crate::tables::phys_memory::pool_fits). The recursive index's word is left out on both sides. The hierarchies
/// have four or five levels. The answer for no hierarchy is true.
///
/// The test meets each table once, terminates for any words, and allocates only one mark for each place.
///
/// # Errors
///
/// `AllocError` if memory allocation fails. No hierarchy, or a memory without places, needs no allocation.
///
/// # Proved
///
/// ```text
/// ensures decides { let all = spaces_in L.LEVELS (P.places mapping.now) (T.tables memory.now) spaces.now in IfOk result (λ fit. IsTrue fit ↔ ShareAndFit (indices_of shared) all (serves_below pool.now.limit) pool.now.frames) }
/// ensures needs_memory { OnErr result ((0 < length spaces.now) × (0 < map.len (T.tables memory.now))) }
/// ```
pub fn spaces_fit<L: LevelCount, T: TableMemory, P: PageTableFrameMapping>(
    memory: &T,
    mapping: &P,
    spaces: &[Space],
    shared: SharedIndices,
    pool: &FramePool,
) -> Result<bool, AllocError> {
    list_fits_pool::<L, _, _, _>(memory, mapping, &Sharing { spaces, shared }, pool)
}

/// Returns whether hierarchies are address spaces that share in pairs the tables below some indices, and a pool fits each.
///
/// Two roots share the indices at which both are in one group. So processes may each have a kernel's root and a user's root that
/// share the user's half, where all kernel's roots share the other one, and all roots one entry of it. Each group is the roots
/// that share an index, so sharing is symmetric and transitive (`groups_share`).
///
/// This is defined as for [`spaces_fit`], but for the indices that two roots share.
///
/// The test meets each table once, terminates for any words, and allocates only one mark for each place. For each index of each
/// root that is in a group, it goes through the roots before it, to the first one in this group.
///
/// # Errors
///
/// `AllocError` if memory allocation fails. No hierarchy, or a memory without places, needs no allocation.
///
/// # Proved
///
/// ```text
/// ensures decides { let groups = map grouped spaces.now in let all = spaces_in L.LEVELS (P.places mapping.now) (T.tables memory.now) (spaces_of groups) in IfOk result (λ fit. IsTrue fit ↔ SharePaired (sharing_of groups) all (serves_below pool.now.limit) pool.now.frames) }
/// ensures needs_memory { OnErr result ((0 < length spaces.now) × (0 < map.len (T.tables memory.now))) }
/// ```
pub fn grouped_spaces_fit<'a, L: LevelCount, T: TableMemory, P: PageTableFrameMapping>(
    memory: &T,
    mapping: &P,
    spaces: &'a [GroupedSpace<'a>],
    pool: &FramePool,
) -> Result<bool, AllocError> {
    list_fits_pool::<L, _, _, _>(memory, mapping, &Groups { spaces }, pool)
}

/// Returns what `grouped_spaces_fit` returns, for any kind of list.
fn list_fits_pool<L: LevelCount, T: TableMemory, P: PageTableFrameMapping, S: SpaceList>(
    memory: &T,
    mapping: &P,
    spaces: &S,
    pool: &FramePool,
) -> Result<bool, AllocError> {
    if spaces.count() == 0 {
        return Ok(true);
    }
    let mut marks = clear_marks(memory)?;
    let test = SpacesTest::<L, _, _> { memory, mapping, levels: PhantomData, limit: pool.limit() };
    Ok(test.is_sound_by(spaces, pool, &mut marks))
}

/// Returns whether hierarchies are address spaces that share the tables below some indices, a pool fits each, and an array has room
/// for every frame that the pool may ever hold. Takes no memory.
///
/// This is defined as for [`spaces_fit`]. The pool is a stack of the addresses of frames: the last is handed out first. An address
/// that is no multiple of 4096 below 2^52 fits no hierarchy. The array has places for `capacity` frames, which are those of the
/// pool and of all tables and roots, since these may come back to the pool. The marks are the test's to write to.
///
/// Requires that there are as many marks as places. They may be set or not. The test ends for any words and any addresses.
///
/// # Panics
///
/// Panics if a condition doesn't hold. It is tested so:
///
/// ```text
/// assert!(marks.len() == memory.len());
/// ```
///
/// # Proved
///
/// ```text
/// requires { length marks.old ≡ map.len (T.tables memory.now) }
/// ensures { let all = spaces_in L.LEVELS (P.places mapping.now) (T.tables memory.now) spaces.now in IsTrue result ↔ ShareWithRoom (indices_of shared) all capacity (reverse frames.now) }
/// ```
pub fn spaces_fit_by_marks<L: LevelCount, T: TableMemory, P: PageTableFrameMapping>(
    memory: &T,
    mapping: &P,
    spaces: &[Space],
    shared: SharedIndices,
    frames: &[u64],
    capacity: usize,
    marks: &mut [bool],
) -> bool {
    assert!(marks.len() == memory.len());
    let spaces = Sharing { spaces, shared };
    list_fits::<L, _, _, _>(memory, mapping, &spaces, frames, capacity, marks)
}

/// Returns what [`spaces_fit_by_marks`] returns for the spaces without a recursive index whose roots have these addresses. The
/// answer is false if an address is no multiple of 4096 below 2^52.
///
/// Requires that there are as many marks as places. They may be set or not. The test ends for any words and any addresses.
///
/// # Panics
///
/// Panics if a condition doesn't hold. It is tested so:
///
/// ```text
/// assert!(marks.len() == memory.len());
/// ```
///
/// # Proved
///
/// ```text
/// requires { length marks.old ≡ map.len (T.tables memory.now) }
/// ensures { IsTrue result ↔ ShareWithRoom (indices_of shared) (spaces_in L.LEVELS (P.places mapping.now) (T.tables memory.now) (spaces_at roots.now)) capacity (reverse frames.now) }
/// ```
pub fn roots_fit_by_marks<L: LevelCount, T: TableMemory, P: PageTableFrameMapping>(
    memory: &T,
    mapping: &P,
    roots: &[u64],
    shared: SharedIndices,
    frames: &[u64],
    capacity: usize,
    marks: &mut [bool],
) -> bool {
    assert!(marks.len() == memory.len());
    match Roots::of(roots, shared) {
        Some(spaces) => list_fits::<L, _, _, _>(memory, mapping, &spaces, frames, capacity, marks),
        None => false,
    }
}

/// Returns whether hierarchies are address spaces that share in pairs the tables below some indices, a pool fits each, and an array
/// has room for every frame that the pool may ever hold. Takes no memory.
///
/// This is defined as for [`grouped_spaces_fit`], and for the frames, the capacity and the marks as for [`spaces_fit_by_marks`].
///
/// Requires that there are as many marks as places. They may be set or not. The test ends for any words and any addresses.
///
/// # Panics
///
/// Panics if a condition doesn't hold. It is tested so:
///
/// ```text
/// assert!(marks.len() == memory.len());
/// ```
///
/// # Proved
///
/// ```text
/// requires { length marks.old ≡ map.len (T.tables memory.now) }
/// ensures { let groups = map grouped spaces.now in let all = spaces_in L.LEVELS (P.places mapping.now) (T.tables memory.now) (spaces_of groups) in IsTrue result ↔ SharePairedWithRoom (sharing_of groups) all capacity (reverse frames.now) }
/// ```
pub fn grouped_spaces_fit_by_marks<'a, L: LevelCount, T: TableMemory, P: PageTableFrameMapping>(
    memory: &T,
    mapping: &P,
    spaces: &'a [GroupedSpace<'a>],
    frames: &[u64],
    capacity: usize,
    marks: &mut [bool],
) -> bool {
    assert!(marks.len() == memory.len());
    list_fits::<L, _, _, _>(memory, mapping, &Groups { spaces }, frames, capacity, marks)
}

/// Returns what `grouped_spaces_fit_by_marks` returns, for any kind of list.
fn list_fits<L: LevelCount, T: TableMemory, P: PageTableFrameMapping, S: SpaceList>(
    memory: &T,
    mapping: &P,
    spaces: &S,
    frames: &[u64],
    capacity: usize,
    marks: &mut [bool],
) -> bool {
    if spaces.count() == 0 {
        return true;
    }
    marks.fill(false);
    let test = SpacesTest::<L, _, _> { memory, mapping, levels: PhantomData, limit: FRAME_COUNT };
    test.has_room_by(spaces, frames, capacity, marks)
}

/// Address spaces to be tested. The frames that may be met are the roots, and those with numbers from 1 to `limit` - 1.
struct SpacesTest<'a, L, T, P> {
    memory: &'a T,
    mapping: &'a P,
    levels: PhantomData<L>,
    limit: u64,
}

impl<'a, L: LevelCount, T: TableMemory, P: PageTableFrameMapping> SpacesTest<'a, L, T, P> {
    /// Returns true if the spaces are alike, and each of their tables and each frame of the pool is met once, is in the memory, and
    /// may be met, by marks that are all clear at first.
    fn is_sound_by<S: SpaceList>(&self, spaces: &S, pool: &FramePool, marks: &mut [bool]) -> bool {
        if !self.mark_spaces(spaces, marks) {
            return false;
        }
        self.test_at(spaces, 0).mark_pool(marks, pool)
    }

    /// Returns what `is_sound_by` returns for a pool of these frames, and false if the capacity is below the number of all tables
    /// and frames.
    fn has_room_by<S: SpaceList>(&self, spaces: &S, frames: &[u64], capacity: usize, marks: &mut [bool]) -> bool {
        if !self.mark_spaces(spaces, marks) {
            return false;
        }
        if !self.test_at(spaces, 0).mark_frames(marks, frames) {
            return false;
        }
        count_set(marks) <= capacity
    }

    /// Marks each root and its own tables. Returns false if one of them can't be marked, or a space isn't like those before it.
    fn mark_spaces<S: SpaceList>(&self, spaces: &S, marks: &mut [bool]) -> bool {
        for n in 0..spaces.count() {
            if !self.is_alike(spaces, n) {
                return false;
            }
            if !self.mark_own(spaces, n, marks) {
                return false;
            }
        }
        true
    }

    /// Returns true if the `n`-th root names itself at the recursive index, if there is one, no word above level three has
    /// `HUGE_PAGE`, and the root has the words of the roots before it at the indices that they share.
    fn is_alike<S: SpaceList>(&self, spaces: &S, n: usize) -> bool {
        let root = spaces.space_at(n).root;
        let view = self.test_at(spaces, n).view;
        view.names_itself() && view.none_huge(root, view.levels_below()) && self.has_shared_words(spaces, n)
    }

    /// Returns true if the `n`-th root has the words of the roots before it at the indices that they share.
    fn has_shared_words<S: SpaceList>(&self, spaces: &S, n: usize) -> bool {
        let space = spaces.space_at(n);
        for index in 0..512 {
            let first = owner(spaces, n, index);
            if space.word(self.memory, self.mapping, index) != first.word(self.memory, self.mapping, index) {
                return false;
            }
        }
        true
    }

    /// Marks the `n`-th root and its own tables. Returns false if one of them can't be marked.
    fn mark_own<S: SpaceList>(&self, spaces: &S, n: usize, marks: &mut [bool]) -> bool {
        let root = spaces.space_at(n).root;
        if !self.test_at(spaces, n).mark(marks, root) {
            return false;
        }
        self.mark_parts(spaces, n, marks)
    }

    /// Marks the tables below the indices of the `n`-th root that none before it shares. Returns false if one of them can't be
    /// marked.
    fn mark_parts<S: SpaceList>(&self, spaces: &S, n: usize, marks: &mut [bool]) -> bool {
        let root = spaces.space_at(n).root;
        let test = self.test_at(spaces, n);
        let levels = test.view.levels_below() - 1;
        for index in 0..512 {
            if owns(spaces, n, index) {
                if let Some(below) = test.view.table_below(root, index) {
                    if !test.mark_tables(marks, below, levels) {
                        return false;
                    }
                }
            }
        }
        true
    }

    /// Returns the test of the `n`-th hierarchy.
    fn test_at<S: SpaceList>(&self, spaces: &S, n: usize) -> HierarchyTest<'a, L, T, P> {
        let space = spaces.space_at(n);
        space.view(self.memory, self.mapping).test(self.limit)
    }
}
