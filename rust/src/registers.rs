//! Registers of the processor that have to do with page tables.
//!
//! With the feature `instructions`. No proof covers this module.

/// Control registers.
pub mod control {
    use crate::addresses::addr::{PhysAddr, VirtAddr, VirtAddrNotValid};
    use crate::bitflags::bitflag_items;
    use crate::conveniences::flag_texts;
    use crate::instructions::tlb::Pcid;
    use crate::pages::frame::PhysFrame;
    use core::arch::asm;
    use core::fmt;

    /// The address at which the last page fault was.
    #[derive(Debug)]
    pub struct Cr2;

    impl Cr2 {
        /// Returns the address, or an error if it isn't canonical with four levels of page tables.
        #[inline]
        pub fn read() -> Result<VirtAddr, VirtAddrNotValid> {
            VirtAddr::try_new(Self::read_raw())
        }

        /// Returns the address as a number.
        #[inline]
        pub fn read_raw() -> u64 {
            let word: u64;
            // SAFETY: ring 0 may read the register.
            unsafe { asm!("mov {}, cr2", out(reg) word, options(nomem, nostack, preserves_flags)) };
            word
        }
    }

    /// The frame of the root table.
    #[derive(Debug)]
    pub struct Cr3;

    /// The flags in CR3.
    #[derive(Clone, Copy, PartialEq, Eq)]
    pub struct Cr3Flags(u64);

    bitflag_items! {
        impl Cr3Flags: u64 {
            /// The root table is written through.
            const PAGE_LEVEL_WRITETHROUGH = 1 << 3;
            /// The root table isn't cached.
            const PAGE_LEVEL_CACHE_DISABLE = 1 << 4;
        }
    }

    flag_texts!(Cr3Flags);

    impl fmt::Debug for Cr3Flags {
        /// Writes the flags by their names.
        fn fmt(&self, f: &mut fmt::Formatter<'_>) -> fmt::Result {
            write!(f, "Cr3Flags({self})")
        }
    }

    impl Cr3 {
        /// Returns the frame and the flags. Where CR4.PCIDE is set, [`read_pcid`](Self::read_pcid) is the one to use.
        #[inline]
        pub fn read() -> (PhysFrame, Cr3Flags) {
            let word = read_word();
            (frame_of(word), Cr3Flags::from_bits_truncate(word))
        }

        /// Returns the frame and the PCID. Without CR4.PCIDE, the flags are bits of this number.
        #[inline]
        pub fn read_pcid() -> (PhysFrame, Pcid) {
            let (frame, low) = Self::read_raw();
            match Pcid::new(low) {
                Ok(pcid) => (frame, pcid),
                Err(_) => unreachable!("the number is below 4096"),
            }
        }

        /// Returns the frame and the lowest twelve bits: the flags, or where CR4.PCIDE is set, the PCID.
        #[inline]
        pub fn read_raw() -> (PhysFrame, u16) {
            let word = read_word();
            (frame_of(word), (word % 4096) as u16)
        }

        /// Makes the processor use the hierarchy with a root. This flushes all but global pages. Where CR4.PCIDE is set,
        /// [`write_pcid`](Self::write_pcid) is the one to use.
        ///
        /// # Safety
        ///
        /// The hierarchy maps all memory that is used as it is used.
        #[inline]
        pub unsafe fn write(frame: PhysFrame, flags: Cr3Flags) {
            // SAFETY: the caller promises it.
            unsafe { write_word(frame.start_address().as_u64() | flags.bits()) };
        }

        /// Makes the processor use the hierarchy with a root, with these lowest twelve bits, as [`read_raw`](Self::read_raw) returns them.
        ///
        /// # Safety
        ///
        /// The hierarchy maps all memory that is used as it is used. The number is below 4096.
        #[inline]
        pub unsafe fn write_raw(frame: PhysFrame, low: u16) {
            // SAFETY: the caller promises it.
            unsafe { write_word(frame.start_address().as_u64() | u64::from(low)) };
        }

        /// Makes the processor use the hierarchy with a root, under a PCID. This flushes what is cached with the PCID but for global pages,
        /// so it is also what ends that another root is held under it ([`tlb`](crate::instructions::tlb)).
        ///
        /// # Safety
        ///
        /// CR4.PCIDE is set, and the hierarchy maps all memory that is used as it is used.
        #[inline]
        pub unsafe fn write_pcid(frame: PhysFrame, pcid: Pcid) {
            // SAFETY: the caller promises it.
            unsafe { write_word(word_of(frame, pcid, false)) };
        }

        /// Makes the processor use the hierarchy with a root, under a PCID, and keeps what is cached with it.
        ///
        /// # Safety
        ///
        /// - CR4.PCIDE is set, and the hierarchy maps all memory that is used as it is used.
        /// - CR3 was last loaded with this root under the PCID, on this processor, and the PCID wasn't given up since: after each call that
        ///   concerns the root it was flushed, as [`tlb`](crate::instructions::tlb) says.
        #[inline]
        pub unsafe fn write_pcid_no_flush(frame: PhysFrame, pcid: Pcid) {
            // SAFETY: the caller promises it.
            unsafe { write_word(word_of(frame, pcid, true)) };
        }
    }

    /// Returns the word of CR3 with a root and a PCID. Bit 63 says that what is cached with the PCID is kept.
    ///
    /// Intel SDM vol. 3A, "Operations that Invalidate TLBs and Paging-Structure Caches".
    #[inline]
    fn word_of(frame: PhysFrame, pcid: Pcid, keeps: bool) -> u64 {
        u64::from(keeps) << 63 | frame.start_address().as_u64() | u64::from(pcid.value())
    }

    #[inline]
    fn read_word() -> u64 {
        let word: u64;
        // SAFETY: ring 0 may read the register.
        unsafe { asm!("mov {}, cr3", out(reg) word, options(nomem, nostack, preserves_flags)) };
        word
    }

    /// Writes a word to CR3.
    ///
    /// # Safety
    ///
    /// The hierarchy with the root that it names maps all memory that is used as it is used.
    #[inline]
    unsafe fn write_word(word: u64) {
        // SAFETY: the caller promises it.
        unsafe { asm!("mov cr3, {}", in(reg) word, options(nostack, preserves_flags)) };
    }

    #[inline]
    fn frame_of(word: u64) -> PhysFrame {
        PhysFrame::containing_address(PhysAddr::new_truncate(word))
    }

    #[cfg(test)]
    mod tests {
        use super::*;

        #[test]
        fn words_of_cr3_have_a_root_and_a_pcid() {
            let (frame, pcid) = (PhysFrame::from_pfn(0xab_cdef), Pcid::new(0x123).expect("it is below 4096"));
            assert_eq!(word_of(frame, pcid, false), 0xa_bcde_f123);
            assert_eq!(word_of(frame, pcid, true), 0x8000_000a_bcde_f123);
            assert_eq!(frame_of(0x8000_000a_bcde_f123), frame);
        }
    }
}
