//! Lists of address spaces, as a test goes through them.

use crate::addresses::addr::PhysAddr;
use crate::pages::frame::PhysFrame;
use crate::spaces::space::{GroupedSpace, SharedIndices, Space};
use crate::tables::page_table::PageTableEntry;

/// A list of address spaces, whose roots are in groups at indices of the highest level.
pub(super) trait SpaceList {
    /// Returns the number of spaces.
    ///
    /// # Proved
    ///
    /// ```text
    /// ensures { result ≡ length (spaces self.now) }
    /// ```
    fn count(&self) -> usize;

    /// Returns the `n`-th space, counted from 0.
    ///
    /// Requires that there are more than `n` spaces.
    ///
    /// # Proved
    ///
    /// ```text
    /// requires { n < length (spaces self.now) }
    /// ensures { result ≡ (grouped_at (spaces self.now) n).space }
    /// ```
    fn space_at(&self, n: usize) -> Space;

    /// Returns the group in which the `n`-th root is at an index, if it is in one there.
    ///
    /// Requires that there are more than `n` spaces.
    ///
    /// # Proved
    ///
    /// ```text
    /// requires { n < length (spaces self.now) }
    /// ensures { result ≡ (grouped_at (spaces self.now) n).group index }
    /// ```
    fn group_at(&self, n: usize, index: usize) -> Option<u64>;
}

/// Returns the first space that shares an index with the `n`-th, which may be this one.
///
/// Requires that there are more than `n` spaces.
pub(super) fn owner<S: SpaceList>(spaces: &S, n: usize, index: usize) -> Space {
    if let Some(group) = spaces.group_at(n, index) {
        for k in 0..n {
            if spaces.group_at(k, index) == Some(group) {
                return spaces.space_at(k);
            }
        }
    }
    spaces.space_at(n)
}

/// Returns true if no space before the `n`-th shares an index with it.
///
/// Requires that there are more than `n` spaces.
pub(super) fn owns<S: SpaceList>(spaces: &S, n: usize, index: usize) -> bool {
    owner(spaces, n, index).root == spaces.space_at(n).root
}

/// Address spaces whose roots are in the groups that their ranges of indices say.
pub(super) struct Groups<'a> {
    pub(super) spaces: &'a [GroupedSpace<'a>],
}

impl<'a> SpaceList for Groups<'a> {
    #[inline]
    fn count(&self) -> usize {
        self.spaces.len()
    }

    #[inline]
    fn space_at(&self, n: usize) -> Space {
        self.spaces[n].space
    }

    #[inline]
    fn group_at(&self, n: usize, index: usize) -> Option<u64> {
        self.spaces[n].group(index)
    }
}

/// Address spaces that all share the same indices.
pub(super) struct Sharing<'a> {
    pub(super) spaces: &'a [Space],
    pub(super) shared: SharedIndices,
}

impl<'a> SpaceList for Sharing<'a> {
    #[inline]
    fn count(&self) -> usize {
        self.spaces.len()
    }

    #[inline]
    fn space_at(&self, n: usize) -> Space {
        self.spaces[n]
    }

    #[inline]
    fn group_at(&self, _: usize, index: usize) -> Option<u64> {
        group_of_all(self.shared, index)
    }
}

/// Address spaces without a recursive index that all share the same indices, by the addresses of their roots.
pub(super) struct Roots<'a> {
    addresses: &'a [u64],
    shared: SharedIndices,
}

impl<'a> Roots<'a> {
    /// Returns the spaces whose roots have some addresses, or `None` if one of these isn't that of a frame.
    #[inline]
    pub(super) fn of(addresses: &'a [u64], shared: SharedIndices) -> Option<Roots<'a>> {
        if addresses.iter().all(|address| is_frame(*address)) {
            Some(Roots { addresses, shared })
        } else {
            None
        }
    }
}

impl<'a> SpaceList for Roots<'a> {
    #[inline]
    fn count(&self) -> usize {
        self.addresses.len()
    }

    #[inline]
    fn space_at(&self, n: usize) -> Space {
        let address = PhysAddr::new_proved(self.addresses[n]);
        Space { root: PhysFrame::from_start_address_unchecked(address), recursive: None }
    }

    #[inline]
    fn group_at(&self, _: usize, index: usize) -> Option<u64> {
        group_of_all(self.shared, index)
    }
}

/// Returns the one group of roots that all share the same indices, if an index is one of these.
#[inline]
fn group_of_all(shared: SharedIndices, index: usize) -> Option<u64> {
    if shared.contains(index) {
        Some(0)
    } else {
        None
    }
}

/// Returns true if an address is that of a frame.
#[inline]
fn is_frame(address: u64) -> bool {
    PageTableEntry::from_word(address).addr().as_u64() == address
}
