//! Access to tables by the paths that lead to them, which all mappers have in common.

pub mod change;
pub mod change_range;
pub mod clean_up;
pub mod condition;
pub mod leaf;
pub mod map;
pub mod map_range;
pub mod parents;
pub mod path;
pub mod translate;

use crate::addresses::index::PageTableIndex;
use crate::pages::frame::PhysFrame;
use crate::pages::page::Size4KiB;
use crate::tables::page_table::{PageTable, PageTableEntry, PageTableFlags};
use crate::tables::page_tables::Tables;

/// Access to the tables of a hierarchy. Each table is named by the path that leads to it and by its frame, and a
/// mapper uses whichever it needs.
///
/// A path has one index per level, from the root's level down. The empty path leads to the root's table.
pub trait TableAccess: Tables {
    /// Returns the root's frame.
    ///
    /// # Proved
    ///
    /// ```text
    /// ensures { result ≡ (Self.hierarchy self.now).layout.root }
    /// ```
    fn root(&self) -> PhysFrame<Size4KiB>;

    /// Returns the flags that the entry of a new table gets in addition to the parent flags.
    ///
    /// # Proved
    ///
    /// ```text
    /// ensures { bits_of result ≡ (Self.hierarchy self.now).layout.added_flags }
    /// ```
    fn new_table_flags(&self) -> PageTableFlags;

    /// Returns the table in the frame that a path leads to.
    ///
    /// Requires that the path leads to the table in this frame, through present entries that name tables, and that it
    /// has fewer indices than there are levels.
    ///
    /// # Proved
    ///
    /// ```text
    /// requires reached { PathReaches (Self.hierarchy self.now) path.now frame }
    /// requires short { length path.now < (Self.hierarchy self.now).layout.levels }
    /// ensures { words (Self.hierarchy self.now) frame ≡ Some result.now }
    /// ```
    fn table(&self, path: &[PageTableIndex], frame: PhysFrame<Size4KiB>) -> &PageTable;

    /// Lends the table in the frame that a path leads to.
    ///
    /// Requires that the path leads to the table in this frame, through present entries that name tables, and that it
    /// has fewer indices than there are levels.
    ///
    /// # Proved
    ///
    /// ```text
    /// requires reached { PathReaches (Self.hierarchy self.old) path.now frame }
    /// requires short { length path.now < (Self.hierarchy self.old).layout.levels }
    /// ensures* lends { sem 𝓛 (LendsTableBy Self.row self.entry result (Self.with_table self.old frame)) }
    /// ensures value { words (Self.hierarchy self.old) frame ≡ Some result.now }
    /// ```
    fn table_mut(&mut self, path: &[PageTableIndex], frame: PhysFrame<Size4KiB>) -> &mut PageTable;

    /// Clears the table in a frame and returns true, if the mapper reaches tables that no entry names. Otherwise
    /// returns false, and changes nothing.
    ///
    /// Requires that the frame's table is in the memory.
    ///
    /// # Proved
    ///
    /// ```text
    /// requires { IsSome (words (Self.hierarchy self.old) frame) }
    /// ensures result { result ≡ Self.reaches_unnamed }
    /// ensures cleared { Self.hierarchy self.new ≡ (if result then with_zeros (Self.hierarchy self.old) frame else Self.hierarchy self.old) }
    /// ```
    fn clear_unnamed(&mut self, frame: PhysFrame<Size4KiB>) -> bool;
}

/// Returns the entry at an index of the table that a path leads to.
#[inline]
fn entry<'m, M: TableAccess + ?Sized>(
    mapper: &'m M,
    path: &[PageTableIndex],
    frame: PhysFrame<Size4KiB>,
    index: PageTableIndex,
) -> &'m PageTableEntry {
    &mapper.table(path, frame)[usize::from(index)]
}

/// Lends the entry at an index of the table that a path leads to.
#[inline]
fn entry_mut<'m, M: TableAccess + ?Sized>(
    mapper: &'m mut M,
    path: &[PageTableIndex],
    frame: PhysFrame<Size4KiB>,
    index: PageTableIndex,
) -> &'m mut PageTableEntry {
    &mut mapper.table_mut(path, frame)[usize::from(index)]
}
