//! What Rust's users expect of these types and what needs no proof: pointers as addresses, numbers as addresses and back, steps, texts,
//! errors as errors of `core`, and a token by default.
//!
//! All of it is written by hand, and outside what is proved. It rests on proved functions, and panics where these do. Sums with `usize`
//! aren't among it, as in the crate `x86_64`: beside those with `u64`, `address + 8` would have no type.

use crate::access::PageFaultCode;
use crate::addresses::addr::{PhysAddr, PhysAddrNotValid, VirtAddr, VirtAddr57, VirtAddr57NotValid, VirtAddrIn, VirtAddrNotValid};
use crate::addresses::index::PageTableIndex;
use crate::addresses::level_count::LevelCount;
use crate::mappers::calls::MapRangeErrorIn;
use crate::mappers::recursive_page_table::InvalidPageTable;
use crate::pages::frame::PfnNotValid;
use crate::pages::page::{AddressNotAligned, PageIn, PageSize};
use crate::sharing::SharedEntry;
use crate::spaces::GiveUpError;
use crate::support::AllocError;
use crate::tables::errors::{FlagUpdateError, MapToError, TranslateError, UnmapError};
use crate::tables::page_table::{FrameError, PageTableFlags};
use crate::tables::tokens::MapperFlushAll;
use core::error::Error;
use core::fmt;

/// Conversions of pointers. No proof covers them.
impl<L: LevelCount> VirtAddrIn<L> {
    /// Creates the address of a pointer.
    ///
    /// # Panics
    ///
    /// Panics if it isn't canonical with so many levels.
    #[inline]
    pub fn from_ptr<T: ?Sized>(ptr: *const T) -> Self {
        Self::new(ptr as *const () as u64)
    }

    /// Returns the address as a pointer.
    #[inline]
    pub const fn as_ptr<T>(self) -> *const T {
        self.as_u64() as *const T
    }

    /// Returns the address as a pointer.
    #[inline]
    pub const fn as_mut_ptr<T>(self) -> *mut T {
        self.as_u64() as *mut T
    }
}

/// Implements conversions of addresses from and to numbers.
macro_rules! numbers {
    ($($Address:ty, $Error:ty, $number:ident;)*) => { $(
        impl From<$Address> for $number {
            /// Returns the raw value. The crate `x86_64` has `as_u64` alone.
            #[inline]
            fn from(address: $Address) -> $number {
                address.as_u64() as $number
            }
        }

        impl TryFrom<$number> for $Address {
            type Error = $Error;

            /// Creates the address with a raw value, as `try_new` does. The crate `x86_64` has `try_new` alone.
            #[inline]
            fn try_from(value: $number) -> Result<$Address, $Error> {
                <$Address>::try_new(value as u64)
            }
        }
    )* };
}

numbers! {
    VirtAddr, VirtAddrNotValid, u64;
    VirtAddr57, VirtAddr57NotValid, u64;
    PhysAddr, PhysAddrNotValid, u64;
}
#[cfg(target_pointer_width = "64")]
numbers! {
    VirtAddr, VirtAddrNotValid, usize;
    VirtAddr57, VirtAddr57NotValid, usize;
    PhysAddr, PhysAddrNotValid, usize;
}

impl From<VirtAddr> for VirtAddr57 {
    /// Returns the address with the same raw value: each address of four levels is one of five levels.
    #[inline]
    fn from(address: VirtAddr) -> VirtAddr57 {
        VirtAddr57::new(address.as_u64())
    }
}

impl TryFrom<VirtAddr57> for VirtAddr {
    type Error = VirtAddrNotValid;

    /// Returns the address with the same raw value, or an error if it isn't canonical with four levels.
    #[inline]
    fn try_from(address: VirtAddr57) -> Result<VirtAddr, VirtAddrNotValid> {
        VirtAddr::try_new(address.as_u64())
    }
}

/// Implements those calls of the trait `Step` that a type lacks. The trait isn't stable, so they are methods.
macro_rules! steps {
    ($([$($generics:tt)*] $Type:ty, $what:literal;)*) => { $(
        /// The calls of the trait `Step` that have a result for any count, or panic. No proof covers them.
        impl<$($generics)*> $Type {
            #[doc = concat!("Returns the ", $what, " `count` steps after `start`, as `forward_checked` does.")]
            ///
            /// # Panics
            ///
            /// Panics if there is none.
            #[inline]
            pub fn forward(start: Self, count: usize) -> Self {
                Self::forward_checked(start, count).expect("a step beyond the last one")
            }

            #[doc = concat!("Returns the ", $what, " `count` steps before `start`, as `backward_checked` does.")]
            ///
            /// # Panics
            ///
            /// Panics if there is none.
            #[inline]
            pub fn backward(start: Self, count: usize) -> Self {
                Self::backward_checked(start, count).expect("a step before the first one")
            }
        }
    )* };
}

steps! {
    [L: LevelCount] VirtAddrIn<L>, "address";
    [S: PageSize, L: LevelCount] PageIn<S, L>, "page";
    [] PageTableIndex, "index";
}

/// Implements the number that a type has as a text, in each form.
macro_rules! number_texts {
    ([$($generics:tt)*] $Type:ty, $number:ident) => {
        $crate::conveniences::number_texts!(Binary [$($generics)*] $Type, $number);
        $crate::conveniences::number_texts!(Octal [$($generics)*] $Type, $number);
        $crate::conveniences::number_texts!(LowerHex [$($generics)*] $Type, $number);
        $crate::conveniences::number_texts!(UpperHex [$($generics)*] $Type, $number);
    };
    ($Form:ident [$($generics:tt)*] $Type:ty, $number:ident) => {
        impl<$($generics)*> core::fmt::$Form for $Type {
            /// Writes the number in this form.
            fn fmt(&self, f: &mut core::fmt::Formatter<'_>) -> core::fmt::Result {
                core::fmt::$Form::fmt(&self.$number(), f)
            }
        }
    };
}

/// Implements texts for a set of flags: the names of its flags, and its number.
macro_rules! flag_texts {
    ($Flags:ty) => {
        $crate::conveniences::number_texts!([] $Flags, bits);

        impl core::fmt::Display for $Flags {
            /// Writes the names of the flags with ` | ` between them, and other bits as a number.
            fn fmt(&self, f: &mut core::fmt::Formatter<'_>) -> core::fmt::Result {
                let flags = <$Flags>::FLAGS.iter().map(|flag| (flag.name(), flag.value().bits()));
                $crate::conveniences::write_names(f, flags, self.bits())
            }
        }
    };
}

pub(crate) use {flag_texts, number_texts};

/// Writes the names of the flags that a number has, and the rest of it as a number.
pub(crate) fn write_names(
    f: &mut fmt::Formatter<'_>,
    flags: impl Iterator<Item = (&'static str, u64)>,
    number: u64,
) -> fmt::Result {
    let (mut rest, mut between) = (number, "");
    for (name, bit) in flags.filter(|(_, bit)| number & bit == *bit) {
        write!(f, "{between}{name}")?;
        (rest, between) = (rest & !bit, " | ");
    }
    if rest != 0 || number == 0 {
        write!(f, "{between}{rest:#x}")?;
    }
    Ok(())
}

number_texts!([L: LevelCount] VirtAddrIn<L>, as_u64);
number_texts!([] PhysAddr, as_u64);
flag_texts!(PageTableFlags);
flag_texts!(PageFaultCode);

impl<L: LevelCount> fmt::Pointer for VirtAddrIn<L> {
    fn fmt(&self, f: &mut fmt::Formatter<'_>) -> fmt::Result {
        fmt::Pointer::fmt(&self.as_ptr::<()>(), f)
    }
}

impl fmt::Pointer for PhysAddr {
    fn fmt(&self, f: &mut fmt::Formatter<'_>) -> fmt::Result {
        fmt::Pointer::fmt(&(self.as_u64() as *const ()), f)
    }
}

impl<L: LevelCount> fmt::Display for VirtAddrIn<L> {
    /// Writes the number in hexadecimal, after `0x`. The crate `x86_64` doesn't have it.
    fn fmt(&self, f: &mut fmt::Formatter<'_>) -> fmt::Result {
        write!(f, "{self:#x}")
    }
}

impl fmt::Display for PhysAddr {
    /// Writes the number in hexadecimal, after `0x`. The crate `x86_64` doesn't have it.
    fn fmt(&self, f: &mut fmt::Formatter<'_>) -> fmt::Result {
        write!(f, "{self:#x}")
    }
}

impl<S: PageSize + fmt::Debug, L: LevelCount> fmt::Debug for MapRangeErrorIn<S, L> {
    fn fmt(&self, f: &mut fmt::Formatter<'_>) -> fmt::Result {
        f.debug_struct("MapRangeError").field("mapped", &self.mapped).field("why", &self.why).finish()
    }
}

impl Default for MapperFlushAll {
    #[inline]
    fn default() -> MapperFlushAll {
        MapperFlushAll::new()
    }
}

/// Implements texts for errors. The crate `x86_64` has none for these.
macro_rules! error_texts {
    ($([$($generics:tt)*] $Error:ty { $($reason:pat => $text:expr,)* })*) => { $(
        impl<$($generics)*> fmt::Display for $Error {
            fn fmt(&self, f: &mut fmt::Formatter<'_>) -> fmt::Result {
                match self {
                    $($reason => write!(f, $text),)*
                }
            }
        }

        impl<$($generics)*> Error for $Error {}
    )* };
}

error_texts! {
    [] VirtAddrNotValid {
        VirtAddrNotValid(value) => "{value:#x} isn't canonical with four levels of page tables",
    }
    [] VirtAddr57NotValid {
        VirtAddr57NotValid(value) => "{value:#x} isn't canonical with five levels of page tables",
    }
    [] PhysAddrNotValid {
        PhysAddrNotValid(value) => "{value:#x} isn't a physical address, which is below 2^52",
    }
    [] FrameError {
        FrameError::FrameNotPresent => "the entry isn't present",
        FrameError::HugeFrame => "the entry is that of a huge page",
    }
    [S: PageSize + fmt::Debug] MapToError<S> {
        MapToError::FrameAllocationFailed => "there is no frame for a table",
        MapToError::ParentEntryHugePage => "the page lies in a huge page",
        MapToError::PageAlreadyMapped(frame) => "the page is already mapped, so not to {frame:?}",
    }
    [] UnmapError {
        UnmapError::ParentEntryHugePage => "the page lies in a huge page, or is one of another size",
        UnmapError::PageNotMapped => "the page isn't mapped",
        UnmapError::InvalidFrameAddress(address) => "the page's entry has the address {address}, at which no frame starts",
    }
    [] FlagUpdateError {
        FlagUpdateError::PageNotMapped => "the page isn't mapped",
        FlagUpdateError::ParentEntryHugePage => "the page lies in a huge page, or has no such entry",
    }
    [] TranslateError {
        TranslateError::PageNotMapped => "the page isn't mapped",
        TranslateError::ParentEntryHugePage => "the page lies in a huge page",
        TranslateError::InvalidFrameAddress(address) => "the page's entry has the address {address}, at which no frame starts",
    }
    [] GiveUpError {
        GiveUpError::EntryUsed => "the root uses an entry that isn't shared",
        GiveUpError::FrameZero => "the root is in frame 0",
    }
    [] SharedEntry {
        SharedEntry => "the call might change an entry of the root that other address spaces share",
    }
}

impl<S: PageSize + fmt::Debug, L: LevelCount> fmt::Display for MapRangeErrorIn<S, L> {
    /// Writes why a page was refused, and how many were mapped before.
    fn fmt(&self, f: &mut fmt::Formatter<'_>) -> fmt::Result {
        write!(f, "{} (pages mapped before: {})", self.why, self.mapped.count())
    }
}

impl<S: PageSize + fmt::Debug, L: LevelCount> Error for MapRangeErrorIn<S, L> {}
impl Error for AllocError {}
impl Error for AddressNotAligned {}
impl Error for PfnNotValid {}
impl Error for InvalidPageTable {}
