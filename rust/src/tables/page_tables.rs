//! What every mapper holds: page tables in a memory that was lent.

use crate::addresses::index::PageTableIndex;
use crate::addresses::level_count::{FiveLevels, FourLevels, LevelCount};
use crate::bitflags::Flags;
use crate::tables::page_table::PageTableFlags;

/// Page tables of four or five levels, in a memory that was lent.
///
/// A place is the number under which the memory holds a table. A frame that has a place is covered.
///
/// Laws: only frames are covered, and distinct covered frames have distinct places.
pub trait Tables {
    /// Returns the recursive index, at which the root has an entry that names the root itself, or `None` if there is none.
    ///
    /// # Proved
    ///
    /// ```text
    /// ensures { result ≡ option_map (λ window. window.index) (Self.hierarchy self.now).layout.window }
    /// ```
    fn recursive_index(&self) -> Option<PageTableIndex>;
}

/// Page tables of `L::LEVELS` levels.
pub trait TablesIn<L: LevelCount>: Tables {}

/// Page tables of four levels.
pub trait PageTables: TablesIn<FourLevels> {}

impl<T: TablesIn<FourLevels>> PageTables for T {}

/// Page tables of five levels.
pub trait PageTables57: TablesIn<FiveLevels> {}

impl<T: TablesIn<FiveLevels>> PageTables57 for T {}

/// Returns the parent flags that `map_to` uses: `PRESENT`, `WRITABLE` and `USER_ACCESSIBLE`, as far as
/// they are among the flags.
///
/// # Proved
///
/// ```text
/// ensures { bits_of result ≡ parent_part (bits_of flags) }
/// ```
#[inline]
pub fn parent_flags(flags: PageTableFlags) -> PageTableFlags {
    flags.intersection(PageTableFlags::PRESENT.union(PageTableFlags::WRITABLE).union(PageTableFlags::USER_ACCESSIBLE))
}
