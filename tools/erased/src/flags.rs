//! The methods and operators of the flags, as the crate bitflags has them.

use crate::kit::bitflags::{Flag, Flags};
use core::fmt;
use core::hash::{Hash, Hasher};
use core::ops::{BitAnd, BitAndAssign, BitOrAssign, BitXor, BitXorAssign, Not, Sub, SubAssign};

/// The flags of a set, one after the other: those that have a name, and then the other bits as one
/// item.
pub struct Iter<F: Flags> {
    flags: core::slice::Iter<'static, Flag<F>>,
    remaining: F::Bits,
}

impl<F: Flags> Iterator for Iter<F> {
    type Item = F;

    fn next(&mut self) -> Option<F> {
        let none = F::Bits::default();
        for flag in self.flags.by_ref() {
            let bits = flag.value.bits();
            if self.remaining & bits == bits {
                self.remaining = self.remaining & !bits;
                return Some(F::from_bits_retain(bits));
            }
        }
        let others = core::mem::replace(&mut self.remaining, none);
        (others != none).then(|| F::from_bits_retain(others))
    }
}

/// Implements methods and operators of sets of flags.
macro_rules! flag_methods {
    ($($flags:path: $bits:ty),*) => {$(
        impl $flags {
            /// Returns the set without flags.
            pub fn empty() -> Self {
                Self::from_bits_retain(0)
            }

            /// Returns the set of all flags.
            pub fn all() -> Self {
                <Self as Flags>::all()
            }

            /// Returns the bits of the set.
            pub fn bits(&self) -> $bits {
                <Self as Flags>::bits(self)
            }

            /// Returns the set with these bits, or `None` if a bit is no flag.
            pub fn from_bits(bits: $bits) -> Option<Self> {
                (bits & !Self::all().bits() == 0).then(|| Self::from_bits_retain(bits))
            }

            /// Returns the set with those of the bits that are flags.
            pub fn from_bits_truncate(bits: $bits) -> Self {
                <Self as Flags>::from_bits_truncate(bits)
            }

            /// Returns the set with these bits, also those that are no flags.
            pub fn from_bits_retain(bits: $bits) -> Self {
                <Self as Flags>::from_bits_retain(bits)
            }

            /// Returns whether the set has no bits.
            pub fn is_empty(&self) -> bool {
                self.bits() == 0
            }

            /// Returns whether the set has all flags.
            pub fn is_all(&self) -> bool {
                self.contains(Self::all())
            }

            /// Returns whether the set has all bits of the other one.
            pub fn contains(&self, other: Self) -> bool {
                <Self as Flags>::contains(self, other)
            }

            /// Returns whether the sets have a bit in common.
            pub fn intersects(&self, other: Self) -> bool {
                self.bits() & other.bits() != 0
            }

            /// Returns the bits that one of the sets has.
            pub fn union(self, other: Self) -> Self {
                Self::from_bits_retain(self.bits() | other.bits())
            }

            /// Returns the bits that both sets have.
            pub fn intersection(self, other: Self) -> Self {
                Self::from_bits_retain(self.bits() & other.bits())
            }

            /// Returns the bits that the other set lacks.
            pub fn difference(self, other: Self) -> Self {
                Self::from_bits_retain(self.bits() & !other.bits())
            }

            /// Returns the bits that exactly one of the sets has.
            pub fn symmetric_difference(self, other: Self) -> Self {
                Self::from_bits_retain(self.bits() ^ other.bits())
            }

            /// Returns the flags that the set lacks.
            pub fn complement(self) -> Self {
                Self::from_bits_truncate(!self.bits())
            }

            /// Returns an iterator over the flags of the set, and then over all bits without a name
            /// as one item.
            pub fn iter(&self) -> Iter<Self> {
                Iter { flags: Self::flags().iter(), remaining: self.bits() }
            }

            /// Returns an iterator over the names and values of the flags of the set.
            pub fn iter_names(&self) -> impl Iterator<Item = (&'static str, Self)> {
                let set = *self;
                let named = Self::flags().iter().map(|flag| (flag.name, flag.value));
                named.filter(move |(_, flag)| set.contains(*flag))
            }

            /// Returns the flag with this name.
            pub fn from_name(name: &str) -> Option<Self> {
                let flag = Self::flags().iter().find(|flag| flag.name == name)?;
                Some(flag.value)
            }

            /// Adds the bits of the other set.
            pub fn insert(&mut self, other: Self) {
                *self = self.union(other);
            }

            /// Removes the bits of the other set.
            pub fn remove(&mut self, other: Self) {
                *self = self.difference(other);
            }

            /// Adds the bits of the other set that this one lacks, and removes the other ones.
            pub fn toggle(&mut self, other: Self) {
                *self = self.symmetric_difference(other);
            }

            /// Adds the bits of the other set if `value` is true, and else removes them.
            pub fn set(&mut self, other: Self, value: bool) {
                if value {
                    self.insert(other);
                } else {
                    self.remove(other);
                }
            }
        }

        impl Copy for $flags {}

        impl BitOrAssign for $flags {
            fn bitor_assign(&mut self, other: Self) {
                self.insert(other);
            }
        }

        impl BitAnd for $flags {
            type Output = Self;

            fn bitand(self, other: Self) -> Self {
                self.intersection(other)
            }
        }

        impl BitAndAssign for $flags {
            fn bitand_assign(&mut self, other: Self) {
                *self = *self & other;
            }
        }

        impl BitXor for $flags {
            type Output = Self;

            fn bitxor(self, other: Self) -> Self {
                self.symmetric_difference(other)
            }
        }

        impl BitXorAssign for $flags {
            fn bitxor_assign(&mut self, other: Self) {
                self.toggle(other);
            }
        }

        impl Sub for $flags {
            type Output = Self;

            fn sub(self, other: Self) -> Self {
                self.difference(other)
            }
        }

        impl SubAssign for $flags {
            fn sub_assign(&mut self, other: Self) {
                self.remove(other);
            }
        }

        impl Not for $flags {
            type Output = Self;

            fn not(self) -> Self {
                self.complement()
            }
        }

        impl Hash for $flags {
            fn hash<H: Hasher>(&self, state: &mut H) {
                self.bits().hash(state);
            }
        }

        impl Extend<$flags> for $flags {
            fn extend<I: IntoIterator<Item = Self>>(&mut self, sets: I) {
                for set in sets {
                    self.insert(set);
                }
            }
        }

        impl FromIterator<$flags> for $flags {
            fn from_iter<I: IntoIterator<Item = Self>>(sets: I) -> Self {
                let mut all = Self::empty();
                all.extend(sets);
                all
            }
        }

        impl IntoIterator for $flags {
            type Item = Self;
            type IntoIter = Iter<Self>;

            fn into_iter(self) -> Iter<Self> {
                self.iter()
            }
        }

        number_format!($flags: Binary, Octal, LowerHex, UpperHex);
    )*};
}

/// Implements formats of numbers, which write the bits.
macro_rules! number_format {
    ($flags:path: $($format:ident),*) => {$(
        impl fmt::$format for $flags {
            fn fmt(&self, f: &mut fmt::Formatter<'_>) -> fmt::Result {
                fmt::$format::fmt(&self.bits(), f)
            }
        }
    )*};
}

flag_methods!(
    crate::inet::StateFlags: u32,
    crate::inet::ExtensionFlags: u8,
    crate::unix::StateFlags: u32,
    crate::unix::ShowFlags: u32
);

/// Implements the set of all states. `all` lacks those that the crate has no name for, such as
/// `TCP_BOUND_INACTIVE` and, for UNIX sockets, `TCP_CLOSE`.
macro_rules! every_state {
    ($($flags:path),*) => {$(
        impl $flags {
            /// Returns the set of all states, also those that have no flag.
            pub fn every_state() -> Self {
                Self::from_bits_retain(u32::MAX)
            }
        }
    )*};
}

every_state!(crate::inet::StateFlags, crate::unix::StateFlags);
