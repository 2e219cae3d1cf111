//! `Vec`, `String` and `Box` without a heap: the first two are always empty, there is no value of
//! the last one, and each allocation fails.

use core::marker::PhantomData;
use core::ops::{Deref, DerefMut};

/// There is no memory.
pub struct TryReserveError;

/// An empty vector.
#[derive(Clone, Debug, PartialEq, Eq)]
pub struct Vec<T>(PhantomData<T>);

impl<T> Vec<T> {
    pub const fn new() -> Self {
        Vec(PhantomData)
    }

    pub fn try_reserve(&mut self, count: usize) -> Result<(), TryReserveError> {
        if count > 0 {
            return Err(TryReserveError);
        }
        Ok(())
    }

    pub fn try_reserve_exact(&mut self, count: usize) -> Result<(), TryReserveError> {
        self.try_reserve(count)
    }

    pub fn capacity(&self) -> usize {
        0
    }

    pub fn as_slice(&self) -> &[T] {
        &[]
    }

    /// Panics: there is no capacity for the item.
    pub fn push(&mut self, _: T) {
        unreachable!();
    }

    /// Panics if there are items: there is no capacity for them.
    pub fn extend_from_slice(&mut self, items: &[T]) {
        assert!(items.is_empty());
    }

    /// Panics if the count is not 0: there is no capacity for the items.
    pub fn resize(&mut self, count: usize, _: T) {
        assert!(count == 0);
    }

    pub fn clear(&mut self) {}
}

impl<T> Deref for Vec<T> {
    type Target = [T];

    fn deref(&self) -> &[T] {
        &[]
    }
}

impl<T> DerefMut for Vec<T> {
    fn deref_mut(&mut self) -> &mut [T] {
        &mut []
    }
}

/// An iterator without items.
pub type IntoIter<T> = core::iter::Empty<T>;

impl<T> IntoIterator for Vec<T> {
    type Item = T;
    type IntoIter = IntoIter<T>;

    fn into_iter(self) -> IntoIter<T> {
        core::iter::empty()
    }
}

/// An empty text.
#[derive(Clone, Debug, PartialEq, Eq)]
pub struct String;

impl String {
    pub const fn new() -> Self {
        String
    }

    pub fn try_reserve(&mut self, count: usize) -> Result<(), TryReserveError> {
        Vec::<u8>::new().try_reserve(count)
    }

    pub fn try_reserve_exact(&mut self, count: usize) -> Result<(), TryReserveError> {
        self.try_reserve(count)
    }

    pub fn as_str(&self) -> &str {
        ""
    }

    /// Panics if the text is not empty: there is no capacity for it.
    pub fn push_str(&mut self, text: &str) {
        assert!(text.is_empty());
    }
}

impl Deref for String {
    type Target = str;

    fn deref(&self) -> &str {
        ""
    }
}

/// A type without values.
#[derive(Clone, Debug, PartialEq, Eq)]
enum Never {}

/// A box, of which there is none.
#[derive(Clone, Debug, PartialEq, Eq)]
pub struct Box<T>(Never, PhantomData<T>);

impl<T> super::boxed::TryBox<T> for Box<T> {
    fn try_box(value: T) -> Result<Self, super::memory::AllocFailed<T>> {
        Err(super::memory::AllocFailed { value })
    }

    fn unbox(boxed: Self) -> T {
        match boxed.0 {}
    }
}

impl<T> Deref for Box<T> {
    type Target = T;

    fn deref(&self) -> &T {
        match self.0 {}
    }
}

impl<T> DerefMut for Box<T> {
    fn deref_mut(&mut self) -> &mut T {
        match self.0 {}
    }
}
