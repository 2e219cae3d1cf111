//! Sets of named bits, as in the crate bitflags.

use core::ops::{BitAnd, BitOr, BitXor, Not};

/// A named set of bits.
pub struct Flag<F> {
    pub name: &'static str,
    pub value: F,
}

/// A set of named bits.
pub trait Flags: Sized + 'static {
    type Bits: Copy
        + PartialEq
        + Default
        + BitAnd<Output = Self::Bits>
        + BitOr<Output = Self::Bits>
        + BitXor<Output = Self::Bits>
        + Not<Output = Self::Bits>;

    fn flags<'a>() -> &'a [Flag<Self>];

    fn bits(&self) -> Self::Bits;

    fn from_bits_retain(bits: Self::Bits) -> Self;

    /// Returns the union of all named sets.
    fn all() -> Self {
        let bits = Self::flags().iter().map(|flag| flag.value.bits());
        Self::from_bits_retain(bits.fold(Self::Bits::default(), |all, bits| all | bits))
    }

    /// Returns the set without bits.
    fn empty() -> Self {
        Self::from_bits_retain(Self::Bits::default())
    }

    /// Returns whether all bits of the other set are in this one.
    fn contains(&self, other: Self) -> bool {
        self.bits() & other.bits() == other.bits()
    }

    /// Returns the set without the bits that no named set has.
    fn from_bits_truncate(bits: Self::Bits) -> Self {
        Self::from_bits_retain(bits & Self::all().bits())
    }
}
