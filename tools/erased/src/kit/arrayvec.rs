//! `ArrayString` and `ArrayVec`, as in the crate arrayvec.

#[cfg(feature = "std")]
use core::fmt;
use core::ops::Deref;

/// A text of up to `N` bytes, without an allocation.
#[cfg(feature = "std")]
pub struct ArrayString<const N: usize> {
    bytes: [u8; N],
    len: usize,
}

#[cfg(feature = "std")]
impl<const N: usize> ArrayString<N> {
    pub fn new() -> Self {
        ArrayString { bytes: [0; N], len: 0 }
    }

    pub fn as_str(&self) -> &str {
        core::str::from_utf8(&self.bytes[..self.len]).expect("only whole texts were appended")
    }
}

#[cfg(feature = "std")]
impl<const N: usize> fmt::Write for ArrayString<N> {
    fn write_str(&mut self, text: &str) -> fmt::Result {
        let end = self.len + text.len();
        self.bytes.get_mut(self.len..end).ok_or(fmt::Error)?.copy_from_slice(text.as_bytes());
        self.len = end;
        Ok(())
    }
}

/// Up to `N` values, without an allocation.
pub struct ArrayVec<T, const N: usize> {
    slots: [T; N],
    len: usize,
}

impl<T: Copy + Default, const N: usize> ArrayVec<T, N> {
    pub fn new() -> Self {
        ArrayVec { slots: [T::default(); N], len: 0 }
    }

    pub fn try_push(&mut self, value: T) {
        self.slots[self.len] = value;
        self.len += 1;
    }

    pub fn pop(&mut self) -> Option<T> {
        self.len = self.len.checked_sub(1)?;
        Some(self.slots[self.len])
    }
}

impl<T, const N: usize> Deref for ArrayVec<T, N> {
    type Target = [T];

    fn deref(&self) -> &[T] {
        &self.slots[..self.len]
    }
}
