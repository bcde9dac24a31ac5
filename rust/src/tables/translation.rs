//! What a virtual address is translated to.

use crate::addresses::addr::PhysAddr;
use crate::pages::frame::PhysFrame;
use crate::pages::page::{Size1GiB, Size2MiB, Size4KiB};
use crate::tables::page_table::PageTableFlags;

/// A frame of 4KiB, 2MiB or 1GiB to which a page of its size is mapped.
#[derive(Clone, Copy, Debug, PartialEq)]
pub enum MappedFrame {
    /// A 4KiB frame, mapped by an entry of level one.
    Size4KiB(PhysFrame<Size4KiB>),
    /// A 2MiB frame, mapped by an entry of level two.
    Size2MiB(PhysFrame<Size2MiB>),
    /// A 1GiB frame, mapped by an entry of level three.
    Size1GiB(PhysFrame<Size1GiB>),
}

impl MappedFrame {
    /// Returns the start address of the frame.
    ///
    /// # Proved
    ///
    /// ```text
    /// ensures { result ≡ frame_start self.now }
    /// ```
    #[inline]
    pub fn start_address(&self) -> PhysAddr {
        match self {
            MappedFrame::Size4KiB(frame) => frame.start_address(),
            MappedFrame::Size2MiB(frame) => frame.start_address(),
            MappedFrame::Size1GiB(frame) => frame.start_address(),
        }
    }

    /// Returns the size of the frame in bytes.
    ///
    /// # Proved
    ///
    /// ```text
    /// ensures { result ≡ frame_size self.now }
    /// ```
    #[inline]
    pub fn size(&self) -> u64 {
        match self {
            MappedFrame::Size4KiB(frame) => frame.size(),
            MappedFrame::Size2MiB(frame) => frame.size(),
            MappedFrame::Size1GiB(frame) => frame.size(),
        }
    }
}

/// The result of translating a virtual address.
#[derive(Clone, Copy, Debug, PartialEq)]
pub enum TranslateResult {
    /// The address lies in a mapped page. The entry of a 4KiB page is used, but may lack `PRESENT`; the entries above it, and
    /// the entry of a larger page, have it.
    Mapped {
        /// The frame that the page is mapped to.
        frame: MappedFrame,
        /// The offset of the address in the page, in bytes.
        offset: u64,
        /// The flags of the entry that maps the page.
        flags: PageTableFlags,
    },
    /// The address lies in no mapped page: on its path an entry above level one lacks `PRESENT`, or that of level one is unused.
    NotMapped,
    /// An entry names no frame. No translation returns this.
    InvalidFrameAddress(PhysAddr),
}
