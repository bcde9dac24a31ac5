//! Accesses by entries that somebody else has read.

use crate::access::controls::Controls;
use crate::access::masks::Masks;
use crate::access::memory_unit::Request;
use crate::access::request::{Access, Fault};
use crate::access::right_bits::RightBits;
use crate::addresses::addr::{PhysAddr, VirtAddrIn};
use crate::addresses::level_count::LevelCount;
use crate::pages::frame::PhysFrame;
use crate::pages::page::Size4KiB;
use crate::tables::page_table::PageTableEntry;

/// Returns the physical address at which an access arrives, by the entries that a page walk has read, from the root's on. It reads no
/// memory.
///
/// It returns what [`access`](crate::access::access) returns in every memory in which the page walk to the address reads these entries. So
/// whoever reads each of them by one atomic load, as a hypervisor does while a guest changes its tables, gets an answer that is that of
/// a processor. Entries behind the one at which the walk ends mean nothing. They may be any words.
///
/// Requires at most 52 bits of physical addresses.
///
/// # Errors
///
/// - `PageFault` with the error code and the level.
/// - `NoMemory` if the processor reads on in a table of which there is no entry: that which the last entry names, or the root.
///
/// # Panics
///
/// Panics if a condition doesn't hold. It is tested so:
///
/// ```text
/// assert!(controls.physical_bits <= 52);
/// ```
///
/// # Proved
///
/// ```text
/// requires { controls.now.physical_bits ≤ 52 }
/// ensures along { accesses.outcome_of result ≡ access_along L.LEVELS (controls_of controls.now) root addr (access_of access) entries.now }
/// ensures memories { IsAccessWherever L.LEVELS (controls_of controls.now) root addr (access_of access) entries.now (accesses.outcome_of result) }
/// ```
#[inline]
pub fn outcome_of<L: LevelCount>(
    entries: &[PageTableEntry],
    root: PhysFrame<Size4KiB>,
    addr: VirtAddrIn<L>,
    access: Access,
    controls: &Controls,
) -> Result<PhysAddr, Fault> {
    assert!(controls.physical_bits <= 52);
    let request = Request { access, controls: *controls };
    request.follow(entries, root, L::LEVELS, addr.position())
}

impl Request {
    /// Goes along entries from the root's down through `levels` levels, at a position: the number of an address counted without the
    /// gap.
    fn follow(self, entries: &[PageTableEntry], root: PhysFrame<Size4KiB>, levels: u64, position: u64) -> Result<PhysAddr, Fault> {
        let masks = Masks::of(self.access, &self.controls);
        let mut frame = root;
        let mut rights = RightBits::ALL;
        for above in 0..levels {
            let level = levels - above;
            let Some(entry) = entries.get(above as usize) else {
                return Err(Fault::NoMemory { frame });
            };
            rights = rights.below(entry);
            if let Some(end) = self.decide(masks, level, entry, position, rights) {
                return end;
            }
            frame = PhysFrame::from_start_address_unchecked(entry.addr());
        }
        Err(Fault::NoMemory { frame })
    }
}
