//! Sets of flags, with the names of the crate `bitflags`.

use core::ops::{BitAnd, BitOr, Not};

/// A flag with its name.
pub struct Flag<B: 'static> {
    name: &'static str,
    value: B,
}

impl<B: 'static> Flag<B> {
    pub(crate) const fn new(name: &'static str, value: B) -> Flag<B> {
        Flag { name, value }
    }

    /// Returns the name.
    pub const fn name(&self) -> &'static str {
        self.name
    }

    /// Returns the value.
    pub const fn value(&self) -> &B {
        &self.value
    }
}

/// A set of flags.
pub trait Flags: Sized + Copy + 'static {
    /// The number that holds the flags.
    type Bits: Copy + Default + PartialEq + BitAnd<Output = Self::Bits> + BitOr<Output = Self::Bits> + Not<Output = Self::Bits>;

    /// Returns all flags.
    fn flags<'a>() -> &'a [Flag<Self>];

    /// Returns the number.
    fn bits(&self) -> Self::Bits;

    /// Returns the set with any number.
    fn from_bits_retain(bits: Self::Bits) -> Self;
}

/// Writes the flags of a set, and the methods and operators of the crate `bitflags`.
macro_rules! bitflag_items {
    ($(impl $name:ident: $bits:ty { $($(#[$($attr:tt)*])* const $flag:ident = $value:expr;)* })*) => { $(
        impl $name {
            $($(#[$($attr)*])* pub const $flag: $name = $name($value);)*

            /// All flags, with their names.
            pub const FLAGS: &'static [$crate::bitflags::Flag<$name>] =
                &[$($crate::bitflags::Flag::new(stringify!($flag), $name::$flag),)*];

            /// Returns the number.
            #[inline]
            pub const fn bits(&self) -> $bits {
                self.0
            }

            /// Returns the set with any number.
            #[inline]
            pub const fn from_bits_retain(bits: $bits) -> $name {
                $name(bits)
            }

            /// Returns the set of no flags.
            #[inline]
            pub const fn empty() -> $name {
                $name(0)
            }

            /// Returns the set of all flags.
            #[inline]
            pub const fn all() -> $name {
                $name(0 $(| $name::$flag.0)*)
            }

            /// Returns the set with a number, or `None` if a bit of it is no flag.
            #[inline]
            pub const fn from_bits(bits: $bits) -> Option<$name> {
                if bits & !$name::all().0 == 0 { Some($name(bits)) } else { None }
            }

            /// Returns the set with a number, without the bits that are no flags.
            #[inline]
            pub const fn from_bits_truncate(bits: $bits) -> $name {
                $name(bits & $name::all().0)
            }

            /// Returns true if the set has no bit.
            #[inline]
            pub const fn is_empty(&self) -> bool {
                self.0 == 0
            }

            /// Returns true if the set has all flags.
            #[inline]
            pub const fn is_all(&self) -> bool {
                $name::all().0 | self.0 == self.0
            }

            /// Returns true if the set has all flags of another.
            #[inline]
            pub const fn contains(&self, other: $name) -> bool {
                self.0 & other.0 == other.0
            }

            /// Returns true if the set has a flag of another.
            #[inline]
            pub const fn intersects(&self, other: $name) -> bool {
                self.0 & other.0 != 0
            }

            /// Returns the flags of either set.
            #[inline]
            pub const fn union(self, other: $name) -> $name {
                $name(self.0 | other.0)
            }

            /// Returns the flags of both sets.
            #[inline]
            pub const fn intersection(self, other: $name) -> $name {
                $name(self.0 & other.0)
            }

            /// Returns the flags that another set lacks.
            #[inline]
            pub const fn difference(self, other: $name) -> $name {
                $name(self.0 & !other.0)
            }

            /// Returns the flags that exactly one of the sets has.
            #[inline]
            pub const fn symmetric_difference(self, other: $name) -> $name {
                $name(self.0 ^ other.0)
            }

            /// Returns the flags that the set lacks.
            #[inline]
            pub const fn complement(self) -> $name {
                $name::from_bits_truncate(!self.0)
            }

            /// Returns true if a bit of the set is no flag.
            #[inline]
            pub const fn contains_unknown_bits(&self) -> bool {
                self.0 & !$name::all().0 != 0
            }

            /// Removes all bits.
            #[inline]
            pub fn clear(&mut self) {
                *self = $name::empty();
            }

            /// Removes the bits that are no flags.
            #[inline]
            pub fn truncate(&mut self) {
                *self = $name::from_bits_truncate(self.0);
            }

            /// Adds flags.
            #[inline]
            pub fn insert(&mut self, other: $name) {
                *self = self.union(other);
            }

            /// Removes flags.
            #[inline]
            pub fn remove(&mut self, other: $name) {
                *self = self.difference(other);
            }

            /// Adds the flags that the set lacks, and removes the others.
            #[inline]
            pub fn toggle(&mut self, other: $name) {
                *self = self.symmetric_difference(other);
            }

            /// Adds or removes flags.
            #[inline]
            pub fn set(&mut self, other: $name, value: bool) {
                if value { self.insert(other) } else { self.remove(other) }
            }
        }

        $crate::bitflags::operator!($name, BitOr bitor BitOrAssign bitor_assign union);
        $crate::bitflags::operator!($name, BitAnd bitand BitAndAssign bitand_assign intersection);
        $crate::bitflags::operator!($name, BitXor bitxor BitXorAssign bitxor_assign symmetric_difference);
        $crate::bitflags::operator!($name, Sub sub SubAssign sub_assign difference);

        impl core::ops::Not for $name {
            type Output = $name;

            #[inline]
            fn not(self) -> $name {
                self.complement()
            }
        }

        impl core::iter::FromIterator<$name> for $name {
            fn from_iter<T: IntoIterator<Item = $name>>(sets: T) -> $name {
                sets.into_iter().fold($name::empty(), $name::union)
            }
        }
    )* };
}

macro_rules! operator {
    ($name:ident, $op:ident $method:ident $assign:ident $assign_method:ident $by:ident) => {
        impl core::ops::$op for $name {
            type Output = $name;

            #[inline]
            fn $method(self, other: $name) -> $name {
                self.$by(other)
            }
        }

        impl core::ops::$assign for $name {
            #[inline]
            fn $assign_method(&mut self, other: $name) {
                *self = self.$by(other);
            }
        }
    };
}

pub(crate) use {bitflag_items, operator};
