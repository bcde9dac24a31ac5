//! Instructions that flush the TLB.
//!
//! With the feature `instructions`. No proof covers this module.

use crate::addresses::addr::VirtAddr;
use crate::addresses::level_count::LevelCount;
use crate::pages::page::PageSize;
use crate::tables::tokens::{MapperFlushAll, MapperFlushIn, MapperFlushRangeIn, MOST_PAGE_ITEMS};
use core::arch::asm;

/// Flushes of the TLB of this processor, and the numbers (PCIDs) under which it caches. Each other processor that uses a root which a call
/// concerns does the same.
///
/// # Several roots and PCIDs
///
/// If CR4.PCIDE is set, a processor tags what it caches with the current PCID, and a load of CR3 may keep it. A PCID *holds* the root with
/// which CR3 was last loaded under it. The tokens' `flush()` drops items of the current PCID, and global ones. After a call the kernel does
/// the same for each other PCID that holds a root which the call concerns: the root of the call's space, and if the page is below indices
/// that spaces share, the root of each of these. There are two ways, and for each of them a law of the proved model:
///
/// - It flushes all that is cached with the PCID: [`flush_pcid`](tlb::flush_pcid) with [`Single`](tlb::InvPcidCommand::Single). For the
///   page of a call [`Address`](tlb::InvPcidCommand::Address) is enough, but not after a clean up, since it may leave tables. All PCIDs at
///   once are flushed by [`All`](tlb::InvPcidCommand::All) or [`flush_all`](tlb::flush_all). The law `flushes_are_enough_with_switches`
///   says: each access goes with the page walk from the current root, at every moment, if nothing that is due for the items that serve
///   concerns its address.
/// - It gives the PCID up: the next load of CR3 with it is [`Cr3::write_pcid`](crate::registers::control::Cr3::write_pcid), which keeps
///   nothing. The law `flushed_calls_leave_no_stale_item_of_a_space` says the same for calls that are followed by the flush that
///   [`flush_after`](crate::flushing::flush_after) returns, if the kernel gives up each other PCID that holds a root which the call
///   reaches.
///
/// Before a root is given up no PCID may hold it (`given_up_roots_may_happen`), so each that does is given up first. `GLOBAL` stands only
/// in flags of pages below indices that all roots share: such items serve under each PCID, and
/// [`AllExceptGlobal`](tlb::InvPcidCommand::AllExceptGlobal), `Single` and `Address` leave them.
///
/// These laws are of the model of processors in the proved sources. That this code does what the model says of each instruction is
/// outside what is proved.
pub mod tlb {
    use super::*;
    use core::fmt;

    /// Flushes what the TLB has of the page with an address, and all that the processor has cached of tables, for the current PCID.
    #[inline]
    pub fn flush(addr: VirtAddr) {
        invlpg(addr.as_u64());
    }

    /// Flushes everything: global pages and the translations of all PCIDs, too.
    ///
    /// The crate `x86_64` writes to CR3 here, which leaves these.
    pub fn flush_all() {
        const GLOBAL_PAGES: u64 = 1 << 7;
        let cr4: u64;
        // SAFETY: ring 0 may read and write CR4, every 64-bit processor has global pages, and each change of CR4.PGE flushes everything.
        unsafe {
            asm!("mov {}, cr4", out(reg) cr4, options(nostack, preserves_flags));
            asm!("mov cr4, {0}", "mov cr4, {1}", in(reg) cr4 ^ GLOBAL_PAGES, in(reg) cr4, options(nostack, preserves_flags));
        }
    }

    /// A PCID (process-context identifier), a number below 4096.
    #[derive(Clone, Copy, Debug, PartialEq, Eq)]
    #[repr(transparent)]
    pub struct Pcid(u16);

    impl Pcid {
        /// Creates a PCID of a number.
        ///
        /// # Errors
        ///
        /// `PcidTooBig` if the number isn't below 4096.
        #[inline]
        pub const fn new(pcid: u16) -> Result<Pcid, PcidTooBig> {
            if pcid < 4096 {
                Ok(Pcid(pcid))
            } else {
                Err(PcidTooBig(pcid))
            }
        }

        /// Returns the number.
        #[inline]
        pub const fn value(&self) -> u16 {
            self.0
        }
    }

    /// The error for a number that is no PCID.
    #[derive(Debug)]
    pub struct PcidTooBig(u16);

    impl fmt::Display for PcidTooBig {
        fn fmt(&self, f: &mut fmt::Formatter<'_>) -> fmt::Result {
            write!(f, "{} is no PCID, which is below 4096", self.0)
        }
    }

    impl core::error::Error for PcidTooBig {}

    /// What an INVPCID flushes.
    #[derive(Debug)]
    pub enum InvPcidCommand {
        /// The page with an address, as cached with a PCID, unless it is global.
        Address(VirtAddr, Pcid),
        /// All that is cached with a PCID, but for global pages.
        Single(Pcid),
        /// Everything, global pages and all PCIDs too.
        All,
        /// All PCIDs, but for global pages.
        AllExceptGlobal,
    }

    /// Flushes what a command says, by the instruction INVPCID.
    ///
    /// Which of them is needed after a call: see [`tlb`](self).
    ///
    /// # Safety
    ///
    /// The processor has INVPCID (bit 10 of EBX of CPUID's leaf 7). As long as CR4.PCIDE is clear, no PCID but 0 is named.
    #[inline]
    pub unsafe fn flush_pcid(command: InvPcidCommand) {
        let (kind, descriptor) = operands(command);
        // SAFETY: the processor has the instruction, which reads the descriptor and changes no memory.
        unsafe { asm!("invpcid {}, [{}]", in(reg) kind, in(reg) &descriptor, options(nostack, preserves_flags)) };
    }

    /// Returns what INVPCID takes: the number of the kind, and a descriptor with the PCID and the address.
    ///
    /// Intel SDM vol. 2A, "INVPCID: Invalidate Process-Context Identifier".
    #[inline]
    fn operands(command: InvPcidCommand) -> (u64, [u64; 2]) {
        match command {
            InvPcidCommand::Address(address, pcid) => (0, [pcid.value().into(), address.as_u64()]),
            InvPcidCommand::Single(pcid) => (1, [pcid.value().into(), 0]),
            InvPcidCommand::All => (2, [0; 2]),
            InvPcidCommand::AllExceptGlobal => (3, [0; 2]),
        }
    }

    #[cfg(test)]
    mod tests {
        use super::*;

        #[test]
        fn commands_are_kinds_and_descriptors() {
            let (pcid, address) = (Pcid::new(0x123).expect("it is below 4096"), VirtAddr::new(0xffff_8000_0000_1000));
            assert_eq!(operands(InvPcidCommand::Address(address, pcid)), (0, [0x123, 0xffff_8000_0000_1000]));
            assert_eq!(operands(InvPcidCommand::Single(pcid)), (1, [0x123, 0]));
            assert_eq!(operands(InvPcidCommand::All), (2, [0, 0]));
            assert_eq!(operands(InvPcidCommand::AllExceptGlobal), (3, [0, 0]));
        }
    }
}

#[inline]
fn invlpg(address: u64) {
    // SAFETY: in ring 0, this changes no memory. An address without a page is no error.
    unsafe { asm!("invlpg [{}]", in(reg) address, options(nostack, preserves_flags)) };
}

impl<S: PageSize, L: LevelCount> MapperFlushIn<S, L> {
    /// Flushes the page from the TLB of this processor, for the current PCID ([others](tlb)).
    #[inline]
    pub fn flush(self) {
        invlpg(self.page().start_address().as_u64());
        self.ignore();
    }
}

impl<S: PageSize, L: LevelCount> MapperFlushRangeIn<S, L> {
    /// Flushes the pages from the TLB of this processor: one by one for the current PCID ([others](tlb)), or if there are more than
    /// [`MOST_PAGE_ITEMS`], everything.
    pub fn flush(self) {
        if self.count() > MOST_PAGE_ITEMS {
            tlb::flush_all();
        } else {
            for k in 0..self.count() {
                invlpg(crate::tables::tokens::page_after(self.page(), k).start_address().as_u64());
            }
        }
        self.ignore();
    }
}

impl MapperFlushAll {
    /// Flushes everything from the TLB of this processor.
    #[inline]
    pub fn flush_all(self) {
        tlb::flush_all();
        self.ignore();
    }
}
