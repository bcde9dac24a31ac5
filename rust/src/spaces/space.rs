//! An address space, and the indices that address spaces share, all alike or in groups.

use crate::addresses::index::PageTableIndex;
use crate::addresses::level_count::{FourLevels, LevelCount};
use crate::pages::frame::PhysFrame;
use crate::pages::page::Size4KiB;
use crate::tables::phys_memory::{HierarchyView, PageTableFrameMapping, TableMemory};

/// The indices of the highest level below which address spaces have the same tables: those from `from` up to, but not including,
/// `to`.
#[derive(Clone, Copy, Debug, PartialEq)]
pub struct SharedIndices {
    /// The first index.
    pub from: u16,
    /// The end of the range: the last index plus one.
    pub to: u16,
}

impl SharedIndices {
    /// The upper half of the address space, the half that kernels use.
    pub const UPPER_HALF: SharedIndices = SharedIndices { from: 256, to: 512 };

    /// Returns true if an index of the highest level is shared.
    ///
    /// # Proved
    ///
    /// ```text
    /// ensures { result ≡ indices_of self index }
    /// ```
    #[inline]
    pub fn contains(self, index: usize) -> bool {
        usize::from(self.from) <= index && index < usize::from(self.to)
    }
}

/// An address space: the hierarchy below a root, whose recursive index is the index at which the root names itself, if it does.
#[derive(Clone, Copy, Debug, PartialEq)]
pub struct Space {
    /// The root's frame.
    pub root: PhysFrame<Size4KiB>,
    /// The index at which the root's entry names the root, if there is one.
    pub recursive: Option<PageTableIndex>,
}

/// A range of indices of the highest level, and the group in which a root is there.
#[derive(Clone, Copy, Debug, PartialEq)]
pub struct GroupIndices {
    /// The indices, from `from` up to, but not including, `to`.
    pub indices: SharedIndices,
    /// The number of the group, which has no other meaning.
    pub group: u64,
}

/// An address space whose root shares each index with the roots that are in one group with it there. A root is in the group of
/// the first range that has the index, and shares the index with no other root if none has it.
#[derive(Clone, Copy, Debug)]
pub struct GroupedSpace<'a> {
    /// The address space.
    pub space: Space,
    /// The ranges of indices at which the root is in a group.
    pub groups: &'a [GroupIndices],
}

impl<'a> GroupedSpace<'a> {
    /// Returns the group in which the root is at an index, if it is in one there.
    ///
    /// # Proved
    ///
    /// ```text
    /// ensures { result ≡ (grouped self.now).group index }
    /// ```
    #[inline]
    pub fn group(&self, index: usize) -> Option<u64> {
        for range in self.groups {
            if range.indices.contains(index) {
                return Some(range.group);
            }
        }
        None
    }
}

impl Space {
    /// Returns the view of the space's hierarchy in a memory.
    pub(crate) fn view<'a, L: LevelCount, T: TableMemory, P: PageTableFrameMapping>(
        &self,
        memory: &'a T,
        mapping: &'a P,
    ) -> HierarchyView<'a, L, T, P> {
        HierarchyView::new(memory, mapping, self.root, self.recursive)
    }

    /// Returns a word of the root in a memory, or 0 at the recursive index.
    ///
    /// Requires that the index is below 512.
    pub(crate) fn word<T: TableMemory, P: PageTableFrameMapping>(&self, memory: &T, mapping: &P, index: usize) -> u64 {
        // The root's words are the same for any number of levels.
        let view = self.view::<FourLevels, _, _>(memory, mapping);
        view.word(self.root, index)
    }
}
