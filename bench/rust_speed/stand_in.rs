//! The root of a crate of the page table files of the crate `x86_64` alone, with what they take from elsewhere.

#![no_std]
#![allow(dead_code, unused_imports, unsafe_op_in_unsafe_fn, unused_macros)]

pub use addr::{PhysAddr, VirtAddr};

/// The macro `bitflags!` of the crate `bitflags`, as far as the files use it.
#[macro_use]
mod bitflags {
    macro_rules! bitflags {
        ($(#[$outer:meta])* pub struct $Name:ident: $Word:ty { $($(#[$inner:meta])* const $FLAG:ident = $value:expr;)* }) => {
            $(#[$outer])*
            #[repr(transparent)]
            pub struct $Name($Word);

            impl $Name {
                $($(#[$inner])* pub const $FLAG: $Name = $Name($value);)*

                #[inline]
                pub const fn empty() -> $Name {
                    $Name(0)
                }

                #[inline]
                pub const fn from_bits_retain(bits: $Word) -> $Name {
                    $Name(bits)
                }

                #[inline]
                pub const fn bits(&self) -> $Word {
                    self.0
                }

                #[inline]
                pub const fn is_empty(&self) -> bool {
                    self.0 == 0
                }

                #[inline]
                pub const fn contains(&self, other: $Name) -> bool {
                    self.0 & other.0 == other.0
                }
            }

            impl core::ops::BitOr for $Name {
                type Output = $Name;

                #[inline]
                fn bitor(self, other: $Name) -> $Name {
                    $Name(self.0 | other.0)
                }
            }

            impl core::ops::BitAnd for $Name {
                type Output = $Name;

                #[inline]
                fn bitand(self, other: $Name) -> $Name {
                    $Name(self.0 & other.0)
                }
            }
        };
    }
}

/// The trait of the crate `bit_field`, as far as the files use it.
mod bit_field {
    pub trait BitField {
        fn get_bits(&self, bits: core::ops::RangeFrom<usize>) -> Self;
        fn set_bits(&mut self, bits: core::ops::RangeFrom<usize>, value: Self);
    }

    impl BitField for u64 {
        #[inline]
        fn get_bits(&self, bits: core::ops::RangeFrom<usize>) -> u64 {
            *self >> bits.start
        }

        #[inline]
        fn set_bits(&mut self, bits: core::ops::RangeFrom<usize>, value: u64) {
            *self = *self & ((1 << bits.start) - 1) | value << bits.start;
        }
    }
}

mod sealed {
    pub trait Sealed {}
}

pub mod addr;
pub mod structures {
    pub mod paging;
}
