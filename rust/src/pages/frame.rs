//! Frames: aligned blocks of physical memory of the size of a page.

use crate::addresses::addr::PhysAddr;
use crate::pages::page::{write_block, AddressNotAligned, PageSize, Size4KiB};
use core::fmt::Debug;
use core::marker::PhantomData;

mod number;
mod operators;
mod ranges;

pub use number::PfnNotValid;
pub use ranges::{PhysFrameRange, PhysFrameRangeInclusive};

/// A frame of size `S`, which starts at a multiple of the size.
///
/// Contracts see it as its start address. Equality, order and hash are those of the start address.
#[derive(Clone, Copy, PartialEq, Eq, PartialOrd, Ord, Hash)]
pub struct PhysFrame<S: PageSize = Size4KiB> {
    start_address: PhysAddr,
    size: PhantomData<S>,
}

impl<S: PageSize> PhysFrame<S> {
    /// Returns the frame that starts at an address.
    ///
    /// # Errors
    ///
    /// `AddressNotAligned` if the address isn't a multiple of the size.
    ///
    /// # Proved
    ///
    /// ```text
    /// ensures aligned { IsOk result ↔ (address % S.SIZE ≡ 0) }
    /// ensures value { IfOk result (λ f. f ≡ address) }
    /// ```
    pub fn from_start_address(address: PhysAddr) -> Result<Self, AddressNotAligned> {
        if address.as_u64() % S::SIZE == 0 {
            Ok(Self::from_start_address_unchecked(address))
        } else {
            Err(AddressNotAligned)
        }
    }

    /// Returns the frame that starts at an address.
    ///
    /// Requires that the address is a multiple of the size. Check this with [`from_start_address`](Self::from_start_address) or
    /// [`PhysAddr::is_aligned`].
    ///
    /// # Panics
    ///
    /// Panics, with debug assertions, if a condition doesn't hold. It is tested so:
    ///
    /// ```text
    /// debug_assert!(start_address.is_aligned(S::SIZE));
    /// ```
    ///
    /// # Proved
    ///
    /// ```text
    /// requires { start_address % S.SIZE ≡ 0 }
    /// ensures { result ≡ start_address }
    /// ```
    pub fn from_start_address_unchecked(start_address: PhysAddr) -> Self {
        debug_assert!(start_address.is_aligned(S::SIZE));
        // Each physical address is below 2^52, as the start of each frame must be.
        let _number = start_address.as_u64();
        PhysFrame { start_address, size: PhantomData }
    }

    /// Returns the frame that contains an address: it starts at the address rounded down to the size.
    ///
    /// # Proved
    ///
    /// ```text
    /// ensures { result ≡ address - address % S.SIZE }
    /// ```
    pub fn containing_address(address: PhysAddr) -> Self {
        let number = address.as_u64();
        PhysFrame { start_address: PhysAddr::new_proved(number - number % S::SIZE), size: PhantomData }
    }

    /// Returns the start address.
    ///
    /// # Proved
    ///
    /// ```text
    /// ensures value { result ≡ self }
    /// ensures below { self < 2 ^ 52 }
    /// ensures aligned { self % S.SIZE ≡ 0 }
    /// ensures aligned_to_4kib { self % 4096 ≡ 0 }
    /// ```
    pub const fn start_address(self) -> PhysAddr {
        self.start_address
    }

    /// Returns the size in bytes.
    ///
    /// # Proved
    ///
    /// ```text
    /// ensures { result ≡ S.SIZE }
    /// ```
    pub fn size(self) -> u64 {
        S::SIZE
    }
}

impl<S: PageSize> Debug for PhysFrame<S> {
    fn fmt(&self, f: &mut core::fmt::Formatter<'_>) -> core::fmt::Result {
        let start = self.start_address.as_u64();
        f.write_str("PhysFrame")?;
        write_block::<S>(f, start)
    }
}
