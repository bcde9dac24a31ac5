//! For kernels: the paths, the names and the signatures of the crate `x86_64`, over the proved code.
//!
//! With the feature `instructions`. A kernel writes `use x86_64_paging::kernel as x86_64;`, and the rest stays as it is.
//!
//! Tables that a processor uses decide what every address means. So calls that could show memory in another place, or with another right,
//! are unsafe functions, where those of [`structures::paging`](crate::structures::paging) are safe ones on tables that are data. The
//! types are the same but for mappers, their traits, and allocators. No mapper of this module has the traits of the other one, so safe
//! code doesn't reach live tables by these:
//!
//! ```
//! # use x86_64_paging::kernel as x86_64;
//! use x86_64::structures::paging::{FrameAllocator, Mapper, OffsetPageTable, Page, PageTableFlags as Flags, PhysFrame, Size4KiB};
//!
//! fn map(mapper: &mut OffsetPageTable, page: Page, frame: PhysFrame, frames: &mut impl FrameAllocator<Size4KiB>) {
//!     // SAFETY: (nothing uses the page or the frame)
//!     unsafe { mapper.map_to(page, frame, Flags::PRESENT, frames) }.expect("map_to failed").flush();
//! }
//! ```
//!
//! ```compile_fail,E0133
//! # use x86_64_paging::kernel as x86_64;
//! use x86_64::structures::paging::{FrameAllocator, Mapper, OffsetPageTable, Page, PageTableFlags as Flags, PhysFrame, Size4KiB};
//!
//! fn map(mapper: &mut OffsetPageTable, page: Page, frame: PhysFrame, frames: &mut impl FrameAllocator<Size4KiB>) {
//!     mapper.map_to(page, frame, Flags::PRESENT, frames).expect("map_to failed").flush(); // call to unsafe function
//! }
//! ```
//!
//! What the crate `x86_64` leaves safe is safe here, too: `unmap`, and `level_4_table_mut`, which lends the root's words. Whoever creates
//! a mapper, by an unsafe function, sees to it that no code gets it that isn't to be trusted with these.
//! `RecursivePageTable::new` is a safe function as well: who creates the reference that it takes, by unsafe code, sees to it.
//!
//! What the crate `x86_64` doesn't have: five levels of tables (`OffsetPageTable57` and the like); many pages by one call
//! ([`RangeMapper`](structures::paging::mapper::RangeMapper)); address spaces that share some tables
//! ([`new_space`](structures::paging::mapper::OffsetPageTableIn::new_space),
//! [`give_up_space`](structures::paging::mapper::OffsetPageTableIn::give_up_space)), and clean ups below entries that they share
//! ([`CleanUpBelowRoot`](structures::paging::mapper::CleanUpBelowRoot)); what to flush with PCIDs ([`tlb`](instructions::tlb)).
//!
//! No proof covers this module: it is what the conditions of the proved code rest on.

mod direct_map;
mod frame_alloc;
mod mapper;
mod pointers;
mod recursive;
#[cfg(doctest)]
mod refused;

pub use crate::{addr, instructions, registers, GiveUpError, PhysAddr, SharedIndices, Space, VirtAddr, VirtAddr57};
pub use direct_map::DirectMap;

/// Structures that the processor reads.
pub mod structures {
    /// Page tables, pages, frames, allocators and mappers.
    pub mod paging {
        pub use crate::kernel::frame_alloc::{FrameAllocator, FrameDeallocator};
        pub use crate::structures::paging::{
            frame, page, page_table, Page, Page57, PageIn, PageOffset, PageSize, PageTable, PageTableFlags, PageTableIndex,
            PhysFrame, Size1GiB, Size2MiB, Size4KiB,
        };
        pub use mapper::{
            MappedPageTable, MappedPageTable57, Mapper, OffsetPageTable, OffsetPageTable57, RecursivePageTable,
            RecursivePageTable57, Translate,
        };

        /// Mappers, with their results and errors.
        pub mod mapper {
            pub use crate::kernel::mapper::{CleanUp, CleanUpBelowRoot, Mapper, MapperAllSizes, RangeMapper, Translate};
            pub use crate::kernel::pointers::{
                MappedPageTable, MappedPageTable57, MappedPageTableIn, OffsetPageTable, OffsetPageTable57, OffsetPageTableIn,
                PageTableFrameMapping,
            };
            pub use crate::kernel::recursive::{RecursivePageTable, RecursivePageTable57, RecursivePageTableIn};
            pub use crate::structures::paging::mapper::{
                FlagUpdateError, InvalidPageTable, MapRangeError, MapRangeError57, MapRangeErrorIn, MapToError, MappedFrame,
                MapperFlush, MapperFlush57, MapperFlushAll, MapperFlushIn, MapperFlushRange, MapperFlushRange57,
                MapperFlushRangeIn, TranslateError, TranslateResult, UnmapError,
            };
        }
    }
}
