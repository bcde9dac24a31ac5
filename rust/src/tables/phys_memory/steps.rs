//! The steps of a page walk: the words that it reads.

use super::walk::{entry_at, index_of, span};
use super::{PageTableFrameMapping, TableMemory};
use crate::addresses::addr::{PhysAddr, VirtAddrIn};
use crate::addresses::level_count::LevelCount;
use crate::pages::frame::PhysFrame;
use crate::pages::page::Size4KiB;
use crate::tables::page_table::{EntryTarget, PageTableEntry};

/// A word that a page walk reads.
#[derive(Clone, Copy, Debug, PartialEq)]
pub struct Step {
    /// The level of its table, from one to five.
    pub level: u64,
    /// The frame of its table.
    pub frame: PhysFrame<Size4KiB>,
    /// Its index in the table.
    pub index: usize,
    /// The word.
    pub word: u64,
}

impl Step {
    /// Returns the word as an entry.
    ///
    /// # Proved
    ///
    /// ```text
    /// ensures { result ≡ self.now.word }
    /// ```
    #[inline]
    pub fn entry(&self) -> PageTableEntry {
        PageTableEntry::from_word(self.word)
    }

    /// Returns what the word leads to.
    ///
    /// # Proved
    ///
    /// ```text
    /// ensures { result ≡ target_of self.now.level self.now.word }
    /// ```
    #[inline]
    pub fn target(&self) -> EntryTarget {
        self.entry().target(self.level)
    }

    /// Returns the physical address of a position (the number of an address counted without the gap) in the page that the word maps,
    /// or `None` if it maps none.
    ///
    /// # Proved
    ///
    /// ```text
    /// ensures { result ≡ address_by position self.now }
    /// ```
    pub fn address(&self, position: u64) -> Option<PhysAddr> {
        if self.target() != EntryTarget::Page {
            return None;
        }
        let size = span(self.level);
        let start = self.entry().addr().as_u64() / size * size;
        Some(PhysAddr::new_proved(start + position % size))
    }
}

/// An iterator over the words that a page walk reads, from the root's on. Contracts see it as the list of those that are still to
/// come. After the last it always returns `None`.
///
/// The walk ends with the first word that leads to no further table, or before a table that isn't in the memory.
pub struct Steps<'a, T: TableMemory, P: PageTableFrameMapping> {
    memory: &'a T,
    mapping: &'a P,
    position: u64,
    level: u64,
    frame: PhysFrame<Size4KiB>,
}

impl<'a, T: TableMemory, P: PageTableFrameMapping> Steps<'a, T, P> {
    /// Creates the iterator over the words that the page walk to an address reads. There are as many levels of page tables as the
    /// address has. The tables may contain any words.
    ///
    /// Intel SDM vol. 3A, "Linear-Address Translation with 4-Level Paging and 5-Level Paging"; AMD APM vol. 2, "Long-Mode Page
    /// Translation".
    ///
    /// # Proved
    ///
    /// ```text
    /// ensures { result ≡ steps (words_of (T.tables memory.now) (P.places mapping.now)) address L.LEVELS root }
    /// ```
    pub fn new<L: LevelCount>(memory: &'a T, mapping: &'a P, root: PhysFrame<Size4KiB>, address: VirtAddrIn<L>) -> Steps<'a, T, P> {
        Steps { memory, mapping, position: address.position(), level: L::LEVELS, frame: root }
    }
}

impl<'a, T: TableMemory, P: PageTableFrameMapping> Iterator for Steps<'a, T, P> {
    type Item = Step;

    fn next(&mut self) -> Option<Step> {
        if self.level == 0 {
            return None;
        }
        let index = index_of(self.position, self.level);
        let entry = entry_at(self.memory, self.mapping, self.frame, index)?;
        let step = Step { level: self.level, frame: self.frame, index, word: entry.word() };
        if let EntryTarget::Table(frame) = step.target() {
            self.level -= 1;
            self.frame = frame;
        } else {
            self.level = 0;
        }
        Some(step)
    }
}
