//! The physical memory that a kernel has mapped from one virtual address on.

use crate::tables::page_table::PageTable;
use crate::tables::phys_memory::{FramePlace, TableMemory};
use core::marker::PhantomData;

/// The physical memory that a kernel maps from one address on: the frame with number `n` lies at the offset `4096 * n`.
///
/// It has places for the frames of some ranges of numbers, in increasing order. A frame beside them is never accessed.
///
/// Over this memory, tables are data: safe calls of [`structures::paging`](crate::structures::paging) change them, for example those of
/// an address space that no processor uses yet. For tables in use there are the mappers of [`kernel`](super).
pub struct DirectMap<'a> {
    // the largest range, which is tried first: where its first frame is mapped, that frame's address, and the bytes of the range
    largest: *mut PageTable,
    address: u64,
    size: u64,
    ranges: &'a [(u64, u64)],
    tables: PhantomData<&'a mut PageTable>,
}

// SAFETY: it stands for an exclusive loan of its memory, which may go to another thread.
unsafe impl Send for DirectMap<'_> {}

impl<'a> DirectMap<'a> {
    /// Creates the memory behind the direct map at an address. Each range has the number of its first frame and that behind its
    /// last frame. The ranges are ascending, and no two of them meet.
    ///
    /// # Safety
    ///
    /// Each frame in the ranges is mapped at its offset, readable and writable, as long as the memory lives, and no other code reads or
    /// writes it meanwhile. Nor does a processor walk it as a table, or else the caller keeps the memory and its mappers to itself: each
    /// call that changes a table over them counts as part of the caller's unsafe block, with what
    /// [`Mapper`](super::structures::paging::Mapper) asks for.
    #[inline]
    pub const unsafe fn new(start: *mut PageTable, ranges: &'a [(u64, u64)]) -> DirectMap<'a> {
        let (mut first, mut count, mut i) = (0, 0, 0);
        while i < ranges.len() {
            if count < ranges[i].1 - ranges[i].0 {
                (first, count) = (ranges[i].0, ranges[i].1 - ranges[i].0);
            }
            i += 1;
        }
        let largest = start.wrapping_add(first as usize);
        DirectMap { largest, address: first << 12, size: count << 12, ranges, tables: PhantomData }
    }

    /// Returns where the table in a frame is. Panics if the frame is in no range.
    #[inline]
    fn pointer(&self, place: FramePlace) -> *mut PageTable {
        assert!(place.number() < 1 << 52, "a page table outside the memory");
        // The shift undoes that by which a mapper gets the number from an address, so no instruction is left of the two.
        let offset = (place.number() << 12).wrapping_sub(self.address);
        if offset < self.size {
            self.largest.wrapping_byte_add(offset as usize)
        } else {
            self.in_another_range(offset)
        }
    }

    /// Returns where the table in a frame is that isn't in the largest range, by its offset from there. Panics if it is in no range.
    #[cold]
    #[inline(never)]
    fn in_another_range(&self, offset: u64) -> *mut PageTable {
        assert!(self.has(offset.wrapping_add(self.address) >> 12), "a page table outside the memory");
        self.largest.wrapping_byte_add(offset as usize)
    }

    fn has(&self, number: u64) -> bool {
        self.ranges.iter().any(|(first, end)| *first <= number && number < *end)
    }
}

impl TableMemory for DirectMap<'_> {
    fn len(&self) -> usize {
        self.ranges.iter().map(|(first, end)| (end - first) as usize).sum()
    }

    fn place_at(&self, n: usize) -> Option<FramePlace> {
        let mut left = n as u64;
        for (first, end) in self.ranges {
            if left < end - first {
                return Some(FramePlace::new(first + left));
            }
            left -= end - first;
        }
        None
    }

    fn index_of(&self, place: FramePlace) -> Option<usize> {
        let mut before = 0;
        for (first, end) in self.ranges {
            if *first <= place.number() && place.number() < *end {
                return Some((before + place.number() - first) as usize);
            }
            before += end - first;
        }
        None
    }

    fn table(&self, place: FramePlace) -> Option<&PageTable> {
        self.has(place.number()).then(|| self.table_at(place))
    }

    fn table_mut(&mut self, place: FramePlace) -> Option<&mut PageTable> {
        self.has(place.number()).then(|| self.table_at_mut(place))
    }

    #[inline]
    fn table_at(&self, place: FramePlace) -> &PageTable {
        // SAFETY: the frame is in a range, so it is mapped (`new`).
        unsafe { &*self.pointer(place) }
    }

    #[inline]
    fn table_at_mut(&mut self, place: FramePlace) -> &mut PageTable {
        // SAFETY: the frame is in a range, so it is mapped (`new`), and the memory is borrowed mutably.
        unsafe { &mut *self.pointer(place) }
    }
}
