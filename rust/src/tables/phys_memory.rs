//! Physical memory that consists of page tables, and mappings of frames to places in it.

use crate::support::Vec;

mod active;
mod alike;
mod frame_segment;
mod hierarchy_view;
mod lent_marks;
mod lent_memory;
mod places;
mod segment_mapping;
mod shift_mapping;
mod steps;
mod table_memory;
mod validity;
mod walk;

use crate::pages::frame::PhysFrame;
use crate::pages::page::{PageSize, Size4KiB};
use crate::support::AllocError;
use crate::tables::page_table::PageTable;
pub use active::{Active, ActiveMemory, ActiveMemory57};
pub use alike::{tables_alike, tables_alike_57};
use core::ops::{Index, IndexMut};
pub use frame_segment::FrameSegment;
pub use hierarchy_view::HierarchyView;
pub use lent_marks::{count_set, is_valid_by_marks, pool_fits_by_marks};
pub use lent_memory::LentMemory;
use places::{is_increasing, SortedPlaces};
pub use segment_mapping::{SegmentMapping, SegmentRefusal};
pub use shift_mapping::ShiftMapping;
pub use steps::{Step, Steps};
pub use table_memory::TableMemory;
pub use validity::{
    clear_marks, is_valid_hierarchy, is_valid_hierarchy_57, is_valid_recursive, is_valid_recursive_57, pool_fits, pool_fits_57,
    pool_fits_recursive, pool_fits_recursive_57, HierarchyTest, FRAME_COUNT,
};
pub use walk::{has_flag, index_of, page_walk, page_walk as page_walk_57, span, table_in, Walked};

/// A place in a physical memory: the number under which it holds a table. Contracts see it as this number.
#[derive(Clone, Copy, Debug, PartialEq)]
pub struct FramePlace(u64);

impl FramePlace {
    /// Creates the place with the given number.
    ///
    /// # Proved
    ///
    /// ```text
    /// ensures { result ≡ number }
    /// ```
    #[inline]
    pub const fn new(number: u64) -> FramePlace {
        FramePlace(number)
    }

    /// Returns the number.
    ///
    /// # Proved
    ///
    /// ```text
    /// ensures { result ≡ self }
    /// ```
    #[inline]
    pub const fn number(self) -> u64 {
        self.0
    }
}

/// The reason why no memory was created with the given places.
#[derive(Clone, Copy, Debug, PartialEq)]
pub enum PlacesRefusal {
    /// A number isn't below the next.
    NotIncreasing,
    /// Memory allocation failed.
    Alloc(AllocError),
}

impl From<AllocError> for PlacesRefusal {
    #[inline]
    fn from(error: AllocError) -> PlacesRefusal {
        PlacesRefusal::Alloc(error)
    }
}

/// A memory that owns page tables. Contracts see it as a finite map from the numbers of places to tables. The places never
/// change.
///
/// A table is accessed by its place, as in `memory[place]`.
///
/// Requires that the memory has the place.
///
/// A place is found in constant time if the memory has all places between the first and it, or if gaps are spread evenly,
/// else by binary search.
pub struct PhysMemory {
    places: SortedPlaces,
    tables: Vec<PageTable>,
}

impl PhysMemory {
    /// Creates a memory with the places 0 to `n` - 1 and all words 0.
    ///
    /// # Errors
    ///
    /// `AllocError` if memory allocation fails. A memory without places needs no allocation.
    ///
    /// # Proved
    ///
    /// ```text
    /// ensures made { IfOk result (λ memory. (place : ℕ) → map.get memory place ≡ (if nat_lt place n then Some zero_words else None)) }
    /// ensures needs_memory { OnErr result (0 < n) }
    /// ```
    #[inline]
    pub fn new(n: u64) -> Result<PhysMemory, AllocError> {
        let mut numbers = Vec::with_capacity(n as usize)?;
        for number in 0..n {
            numbers.push_reserved(number);
        }
        zero_memory(numbers)
    }

    /// Creates a memory with the places of the given numbers and all words 0.
    ///
    /// # Errors
    ///
    /// `NotIncreasing` if a number isn't below the next, else `Alloc` if memory allocation fails. A memory without places needs
    /// no allocation.
    ///
    /// # Proved
    ///
    /// ```text
    /// ensures made { IfOk result (λ memory. (place : ℕ) → map.get memory place ≡ (if list_any (λ number. place == number) places.now then Some zero_words else None)) }
    /// ensures increasing { OnOk result (IsStrictlyIncreasing places.now) }
    /// ensures not_increasing { (result ≡ Err PlacesRefusal.NotIncreasing) ↔ (¬ IsStrictlyIncreasing places.now) }
    /// ensures needs_memory { OnErr result (0 < length places.now) }
    /// ```
    #[inline]
    pub fn with_places(places: &[u64]) -> Result<PhysMemory, PlacesRefusal> {
        if !is_increasing(places) {
            return Err(PlacesRefusal::NotIncreasing);
        }
        let mut numbers = Vec::new();
        numbers.extend_from_slice(places)?;
        Ok(zero_memory(numbers)?)
    }

    /// Creates a memory with the places of the given numbers and a table at each, in their order. Returns `None` if a number
    /// isn't below the next, or if there aren't as many tables as numbers.
    ///
    /// # Proved
    ///
    /// ```text
    /// ensures { SomeIff result (IsStrictlyIncreasing places.items × (length tables.items ≡ length places.items)) (tables_at places.items tables.items) }
    /// ```
    #[inline]
    pub fn with_tables(places: Vec<u64>, tables: Vec<PageTable>) -> Option<PhysMemory> {
        if !is_increasing(&places) || tables.len() != places.len() {
            return None;
        }
        let places = SortedPlaces::new(places);
        Some(PhysMemory { places, tables })
    }

    /// Returns the number of places.
    ///
    /// # Proved
    ///
    /// ```text
    /// ensures { result ≡ map.len self.now }
    /// ```
    #[inline]
    pub fn len(&self) -> usize {
        self.tables.len()
    }

    /// Returns the `n`-th place in increasing order, counted from 0, or `None` if the memory has no more than `n` places.
    ///
    /// # Proved
    ///
    /// ```text
    /// ensures { result ≡ slice_get (map.keys self.now) n }
    /// ```
    #[inline]
    pub fn place_at(&self, n: usize) -> Option<FramePlace> {
        let number = self.places.number_at(n)?;
        Some(FramePlace::new(number))
    }

    /// Returns the table at a place, or `None` if the memory lacks the place.
    ///
    /// # Proved
    ///
    /// ```text
    /// ensures { option_copied result ≡ map.get self.now place }
    /// ```
    #[inline]
    pub fn table(&self, place: FramePlace) -> Option<&PageTable> {
        if self.is_dense() {
            self.tables.get(place.number() as usize)
        } else {
            self.search(place)
        }
    }

    /// Lends the table at a place mutably, or returns `None` if the memory lacks the place.
    ///
    /// # Proved
    ///
    /// ```text
    /// ensures* writes_back { sem 𝓛 (LendsTable self.entry place result) }
    /// ensures value { option_copied_mut result ≡ map.get self.old place }
    /// ```
    #[inline]
    pub fn table_mut(&mut self, place: FramePlace) -> Option<&mut PageTable> {
        if self.is_dense() {
            self.tables.get_mut(place.number() as usize)
        } else {
            self.search_mut(place)
        }
    }

    /// Returns the number of places before a place, or `None` if the memory lacks it.
    #[inline]
    fn index_of(&self, place: FramePlace) -> Option<usize> {
        self.places.index_of(place.number())
    }

    /// Returns true if the places are known to be all numbers from 0 on, so that the index of each place is its number.
    #[inline]
    fn is_dense(&self) -> bool {
        self.places.is_dense()
    }

    /// Finds the table at a place by the place's index, or returns `None`. This and the functions below are separate, so that
    /// callers contain only the code for places that are all numbers from 0 on.
    #[cold]
    #[inline(never)]
    fn search(&self, place: FramePlace) -> Option<&PageTable> {
        let index = self.places.index_of(place.number())?;
        self.tables.get(index)
    }

    /// Finds the table at a place as `search` does, and lends it mutably.
    #[cold]
    #[inline(never)]
    fn search_mut(&mut self, place: FramePlace) -> Option<&mut PageTable> {
        let index = self.places.index_of(place.number())?;
        self.tables.get_mut(index)
    }

    /// Finds the table at a place that the memory has, by the place's index.
    #[cold]
    #[inline(never)]
    fn find(&self, place: FramePlace) -> &PageTable {
        let index = self.places.index_there(place.number());
        &self.tables[index]
    }

    /// Finds the table at a place as `find` does, and lends it mutably.
    #[cold]
    #[inline(never)]
    fn find_mut(&mut self, place: FramePlace) -> &mut PageTable {
        let index = self.places.index_there(place.number());
        &mut self.tables[index]
    }
}

/// Creates a memory with the places of the given numbers and all words 0.
fn zero_memory(numbers: Vec<u64>) -> Result<PhysMemory, AllocError> {
    let n = numbers.len();
    let mut tables = Vec::with_capacity(n)?;
    for _ in 0..n {
        tables.push_reserved(PageTable::new());
    }
    let places = SortedPlaces::new(numbers);
    Ok(PhysMemory { places, tables })
}

impl Index<FramePlace> for PhysMemory {
    type Output = PageTable;

    #[inline]
    fn index(&self, place: FramePlace) -> &PageTable {
        if self.is_dense() {
            &self.tables[place.number() as usize]
        } else {
            self.find(place)
        }
    }
}

impl IndexMut<FramePlace> for PhysMemory {
    #[inline]
    fn index_mut(&mut self, place: FramePlace) -> &mut PageTable {
        if self.is_dense() {
            &mut self.tables[place.number() as usize]
        } else {
            self.find_mut(place)
        }
    }
}

/// A mapping of 4KiB frames to places in a physical memory. It covers the frames that have a place.
///
/// Law: distinct covered frames have distinct places.
pub trait PageTableFrameMapping {
    /// Returns the place of a frame.
    ///
    /// Requires that the frame is covered.
    ///
    /// # Proved
    ///
    /// ```text
    /// requires { (places self.now).covers frame ≡ true }
    /// ensures { result ≡ (places self.now).place frame }
    /// ```
    fn frame_to_pointer(&self, frame: PhysFrame<Size4KiB>) -> FramePlace;

    /// Returns true if a frame is covered.
    ///
    /// # Proved
    ///
    /// ```text
    /// ensures { result ≡ (places self.now).covers frame }
    /// ```
    fn covers(&self, frame: PhysFrame<Size4KiB>) -> bool;
}

impl<P: PageTableFrameMapping> PageTableFrameMapping for &P {
    fn frame_to_pointer(&self, frame: PhysFrame<Size4KiB>) -> FramePlace {
        (**self).frame_to_pointer(frame)
    }

    fn covers(&self, frame: PhysFrame<Size4KiB>) -> bool {
        (**self).covers(frame)
    }
}

/// The mapping of each 4KiB frame to the place with the frame's number. All frames are covered.
#[derive(Clone, Copy, Debug)]
pub struct IdentityMapping;

impl PageTableFrameMapping for IdentityMapping {
    #[inline]
    fn frame_to_pointer(&self, frame: PhysFrame<Size4KiB>) -> FramePlace {
        FramePlace::new(frame.start_address().as_u64() / Size4KiB::SIZE)
    }

    #[inline]
    fn covers(&self, frame: PhysFrame<Size4KiB>) -> bool {
        let _start = frame.start_address();
        true
    }
}
