//! Pages: aligned blocks of virtual memory of one of three sizes.
//!
//! Intel SDM vol. 3A, "4-Level Paging and 5-Level Paging"; AMD APM vol. 2, "Long-Mode Page Translation".

use crate::addresses::addr::VirtAddrIn;
use crate::addresses::index::{PageTableIndex, PageTableLevel, PageTableLevel57};
use crate::addresses::level_count::{FiveLevels, FourLevels, LevelCount};
use crate::pages::range::places;
use core::fmt::{Debug, Display};
use core::marker::PhantomData;

mod indices;
mod operators;
mod ranges;
mod steps;

pub use ranges::{PageRange, PageRangeInclusive, PageRangeInclusive57};

mod sealed {
    /// Keeps other crates from adding sizes.
    pub trait Sealed {}

    impl Sealed for super::Size4KiB {}

    impl Sealed for super::Size2MiB {}

    impl Sealed for super::Size1GiB {}
}

/// A size of pages and frames: 4KiB, 2MiB or 1GiB.
pub trait PageSize: Copy + Eq + PartialOrd + Ord + sealed::Sealed {
    /// The size in bytes.
    const SIZE: u64;

    /// The name of the size in formatted text.
    const DEBUG_STR: &'static str;

    /// The level of the entries that map pages of this size.
    const LEVEL: u64;
}

/// A size below 1GiB, whose pages have an index of level two.
pub trait NotGiantPageSize: PageSize {}

/// The size 4KiB, of pages that entries of level one map.
#[derive(Debug, Clone, Copy, PartialEq, Eq, PartialOrd, Ord, Hash)]
pub struct Size4KiB;

impl PageSize for Size4KiB {
    const SIZE: u64 = 0x1000;

    const DEBUG_STR: &'static str = "4KiB";

    const LEVEL: u64 = 1;
}

impl NotGiantPageSize for Size4KiB {}

/// The size 2MiB, of pages that entries of level two map.
#[derive(Debug, Clone, Copy, PartialEq, Eq, PartialOrd, Ord, Hash)]
pub struct Size2MiB;

impl PageSize for Size2MiB {
    const SIZE: u64 = 0x20_0000;

    const DEBUG_STR: &'static str = "2MiB";

    const LEVEL: u64 = 2;
}

impl NotGiantPageSize for Size2MiB {}

/// The size 1GiB, of pages that entries of level three map.
#[derive(Debug, Clone, Copy, PartialEq, Eq, PartialOrd, Ord, Hash)]
pub struct Size1GiB;

impl PageSize for Size1GiB {
    const SIZE: u64 = 0x4000_0000;

    const DEBUG_STR: &'static str = "1GiB";

    const LEVEL: u64 = 3;
}

/// The error for an address that isn't aligned to the size.
#[derive(Debug, PartialEq)]
pub struct AddressNotAligned;

impl Display for AddressNotAligned {
    #[inline]
    fn fmt(&self, f: &mut core::fmt::Formatter<'_>) -> core::fmt::Result {
        write!(f, "the given address was not sufficiently aligned")
    }
}

/// A page of size `S`, with `L` levels of page tables. It starts at a multiple of the size.
///
/// Contracts see it as the position of its start address: the number of the address counted without the gap in the middle of the
/// address space. Equality, order and hash are those of the start address. Equality and order are also those of the position.
#[derive(Clone, Copy)]
pub struct PageIn<S: PageSize, L: LevelCount> {
    start_address: VirtAddrIn<L>,
    size: PhantomData<S>,
}

impl<S: PageSize, L: LevelCount> PartialEq for PageIn<S, L> {
    #[inline]
    fn eq(&self, other: &Self) -> bool {
        self.start_address == other.start_address
    }
}

impl<S: PageSize, L: LevelCount> Eq for PageIn<S, L> {}

impl<S: PageSize, L: LevelCount> PartialOrd for PageIn<S, L> {
    #[inline]
    fn partial_cmp(&self, other: &Self) -> Option<core::cmp::Ordering> {
        Some(self.cmp(other))
    }
}

impl<S: PageSize, L: LevelCount> Ord for PageIn<S, L> {
    #[inline]
    fn cmp(&self, other: &Self) -> core::cmp::Ordering {
        self.start_address.cmp(&other.start_address)
    }
}

impl<S: PageSize, L: LevelCount> core::hash::Hash for PageIn<S, L> {
    fn hash<H: core::hash::Hasher>(&self, state: &mut H) {
        self.start_address.hash(state);
    }
}

/// A page of size `S`, with four levels of page tables.
pub type Page<S = Size4KiB> = PageIn<S, FourLevels>;

/// A page of size `S`, with five levels of page tables.
pub type Page57<S = Size4KiB> = PageIn<S, FiveLevels>;

impl<S: PageSize, L: LevelCount> PageIn<S, L> {
    /// Returns the page that starts at an address.
    ///
    /// # Errors
    ///
    /// `AddressNotAligned` if the address isn't a multiple of the size.
    ///
    /// # Proved
    ///
    /// ```text
    /// ensures aligned { IsOk result ↔ (address % S.SIZE ≡ 0) }
    /// ensures value { IfOk result (λ page. page ≡ address) }
    /// ```
    #[inline]
    pub fn from_start_address(address: VirtAddrIn<L>) -> Result<Self, AddressNotAligned> {
        places::starting_at(address.position())
    }

    /// Returns the page that starts at an address.
    ///
    /// Requires that the address is a multiple of the size. Check this with [`from_start_address`](Self::from_start_address) or
    /// [`VirtAddrIn::is_aligned`].
    ///
    /// # Panics
    ///
    /// Panics, with debug assertions, if a condition doesn't hold. It is tested so:
    ///
    /// ```text
    /// debug_assert!(start_address.is_aligned(S::SIZE));
    /// ```
    ///
    /// # Proved
    ///
    /// ```text
    /// requires { start_address % S.SIZE ≡ 0 }
    /// ensures { result ≡ start_address }
    /// ```
    #[inline]
    pub fn from_start_address_unchecked(start_address: VirtAddrIn<L>) -> Self {
        debug_assert!(start_address.is_aligned(S::SIZE));
        // Each position is below the number of positions, as the start of each page must be.
        let _raw = start_address.as_u64();
        PageIn { start_address, size: PhantomData }
    }

    /// Returns the page that contains an address: it starts at the address rounded down to the size.
    ///
    /// # Proved
    ///
    /// ```text
    /// ensures { result ≡ address - address % S.SIZE }
    /// ```
    #[inline]
    pub fn containing_address(address: VirtAddrIn<L>) -> Self {
        places::containing(address.position())
    }

    /// Returns the start address.
    ///
    /// # Proved
    ///
    /// ```text
    /// ensures value { result ≡ self }
    /// ensures aligned { self % S.SIZE ≡ 0 }
    /// ```
    #[inline]
    pub const fn start_address(self) -> VirtAddrIn<L> {
        self.start_address
    }

    /// Returns the size in bytes, which is also the constant `SIZE` of [`Block`](crate::pages::range::Block).
    ///
    /// # Proved
    ///
    /// ```text
    /// ensures { result ≡ S.SIZE }
    /// ```
    #[inline]
    pub fn size(self) -> u64 {
        S::SIZE
    }

    /// Returns the index of level four: bits 39 to 47 of the start address.
    ///
    /// # Proved
    ///
    /// ```text
    /// ensures { result ≡ index 4 self }
    /// ```
    #[inline]
    pub fn p4_index(self) -> PageTableIndex {
        self.start_address.p4_index()
    }

    /// Returns the index of level three: bits 30 to 38 of the start address.
    ///
    /// # Proved
    ///
    /// ```text
    /// ensures { result ≡ index 3 self }
    /// ```
    #[inline]
    pub fn p3_index(self) -> PageTableIndex {
        self.start_address.p3_index()
    }

    /// Returns the index of a level: the nine bits of the start address from bit 9 * `level` + 3 on.
    ///
    /// Requires that the level is from one to the number of levels.
    ///
    /// # Panics
    ///
    /// Panics if a condition doesn't hold. It is tested so:
    ///
    /// ```text
    /// assert!(1 <= level && level <= L::LEVELS);
    /// ```
    ///
    /// # Proved
    ///
    /// ```text
    /// requires { (1 ≤ level) × (level ≤ L.LEVELS) }
    /// ensures { result ≡ index level self }
    /// ```
    #[inline]
    pub fn table_index(self, level: u64) -> PageTableIndex {
        assert!(1 <= level && level <= L::LEVELS);
        self.start_address.table_index(level)
    }
}

impl<S: PageSize> Page<S> {
    /// Returns the index of a level.
    ///
    /// # Proved
    ///
    /// ```text
    /// ensures { result ≡ index (level_number level) self }
    /// ```
    #[inline]
    pub fn page_table_index(self, level: PageTableLevel) -> PageTableIndex {
        self.start_address.page_table_index(level)
    }
}

impl<S: PageSize> Page57<S> {
    /// Returns the index of a level.
    ///
    /// # Proved
    ///
    /// ```text
    /// ensures { result ≡ index (level_number_57 level) self }
    /// ```
    #[inline]
    pub fn page_table_index(self, level: PageTableLevel57) -> PageTableIndex {
        self.start_address.page_table_index(level)
    }

    /// Returns the index of level five: bits 48 to 56 of the start address.
    ///
    /// # Proved
    ///
    /// ```text
    /// ensures { result ≡ index 5 self }
    /// ```
    #[inline]
    pub fn p5_index(self) -> PageTableIndex {
        self.start_address.p5_index()
    }
}

impl<S: NotGiantPageSize, L: LevelCount> PageIn<S, L> {
    /// Returns the index of level two: bits 21 to 29 of the start address.
    ///
    /// # Proved
    ///
    /// ```text
    /// ensures { result ≡ index 2 self }
    /// ```
    #[inline]
    pub fn p2_index(self) -> PageTableIndex {
        self.start_address.p2_index()
    }
}

impl<L: LevelCount> PageIn<Size4KiB, L> {
    /// Returns the index of level one: bits 12 to 20 of the start address.
    ///
    /// # Proved
    ///
    /// ```text
    /// ensures { result ≡ index 1 self }
    /// ```
    #[inline]
    pub fn p1_index(self) -> PageTableIndex {
        self.start_address.p1_index()
    }
}

impl<S: PageSize, L: LevelCount> Debug for PageIn<S, L> {
    #[inline]
    fn fmt(&self, f: &mut core::fmt::Formatter<'_>) -> core::fmt::Result {
        let start = self.start_address.as_u64();
        write!(f, "Page{}", L::SUFFIX)?;
        write_block::<S>(f, start)
    }
}

/// Writes the size and the start of a page or a frame, as in `[4KiB](0x1000)`.
#[inline]
pub(crate) fn write_block<S: PageSize>(f: &mut core::fmt::Formatter<'_>, start: u64) -> core::fmt::Result {
    let size = S::DEBUG_STR;
    write!(f, "[{size}]({start:#x})")
}
