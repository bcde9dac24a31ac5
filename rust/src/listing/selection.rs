//! Selections of mappings and regions.

use crate::addresses::addr::VirtAddrIn;
use crate::addresses::level_count::LevelCount;
use crate::tables::page_table::Rights;

/// Which mappings or regions are selected: those that reach into the addresses from one to another, both included, and have at
/// least some rights.
///
/// Of an address only the bits count that the levels of page tables translate: the low 48 with four levels, and 57 with five.
#[derive(Clone, Copy)]
pub struct Selection {
    /// The first of the addresses. If `None`, it is the first of all.
    pub from: Option<u64>,
    /// The last of the addresses. If `None`, it is the last of all.
    pub to: Option<u64>,
    /// The rights that each of them has, perhaps with others.
    pub rights: Rights,
}

impl Selection {
    /// Everything that is mapped.
    pub const ALL: Selection = Selection { from: None, to: None, rights: Rights::NONE };

    /// Returns true if positions from the first to the last reach into the selected addresses, and the rights include those of the
    /// selection. A position is the number of an address counted without the gap.
    ///
    /// # Proved
    ///
    /// ```text
    /// ensures { result ≡ selections.is_selected L.LEVELS self.now (record { first = first; last = last; rights = rights }) }
    /// ```
    pub fn selects<L: LevelCount>(&self, first: u64, last: u64, rights: Rights) -> bool {
        is_from::<L>(self.from, last) && is_to::<L>(self.to, first) && includes(rights, self.rights)
    }

    /// Returns true if positions from the first to the last reach into the selected addresses.
    pub(crate) fn reaches<L: LevelCount>(&self, first: u64, last: u64) -> bool {
        is_from::<L>(self.from, last) && is_to::<L>(self.to, first)
    }

    /// Returns true if positions from the first to the last are all selected addresses.
    pub(crate) fn covers<L: LevelCount>(&self, first: u64, last: u64) -> bool {
        is_from::<L>(self.from, first) && is_to::<L>(self.to, last)
    }
}

/// Returns true if a position isn't below that of an address, if there is one.
fn is_from<L: LevelCount>(from: Option<u64>, position: u64) -> bool {
    match from {
        Some(address) => VirtAddrIn::<L>::new_truncate(address).position() <= position,
        None => true,
    }
}

/// Returns true if a position isn't above that of an address, if there is one.
fn is_to<L: LevelCount>(to: Option<u64>, position: u64) -> bool {
    match to {
        Some(address) => position <= VirtAddrIn::<L>::new_truncate(address).position(),
        None => true,
    }
}

/// Returns true if rights include all others: each of write, user and execute that the others have.
///
/// # Proved
///
/// ```text
/// ensures { result ≡ selections.includes rights others }
/// ```
#[inline]
pub fn includes(rights: Rights, others: Rights) -> bool {
    (rights.write || !others.write) && (rights.user || !others.user) && (rights.execute || !others.execute)
}
