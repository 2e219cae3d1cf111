//! `Vec` with allocations that may fail.

use super::heap::Vec;
use super::memory::{AllocError, AllocFailed};

/// The functions of Rattle's `Vec` that allocate. One that fails changes nothing.
pub trait TryVec<T>: Sized {
    /// Returns an empty vector with this capacity.
    fn with_reserved(capacity: usize) -> Result<Self, AllocError>;

    /// Returns a copy of the items.
    fn from_slice(items: &[T]) -> Result<Self, AllocError>
    where
        T: Copy;

    /// Returns a vector with this item `count` times.
    fn filled(item: T, count: usize) -> Result<Self, AllocError>
    where
        T: Copy;

    /// Appends an item. There must be capacity for it.
    fn push_reserved(&mut self, item: T);

    /// Appends an item, or returns it if an allocation fails.
    fn try_push(&mut self, value: T) -> Result<(), AllocFailed<T>>;

    /// Inserts an item before the one at an index, or returns it if an allocation fails.
    fn try_insert(&mut self, index: usize, value: T) -> Result<(), AllocFailed<T>>;

    /// Appends copies of the items.
    fn try_extend_from_slice(&mut self, items: &[T]) -> Result<(), AllocError>
    where
        T: Copy;

    /// Removes the items after the first `count`, or appends copies of an item.
    fn try_resize(&mut self, count: usize, item: T) -> Result<(), AllocError>
    where
        T: Copy;
}

impl<T> TryVec<T> for Vec<T> {
    fn with_reserved(capacity: usize) -> Result<Self, AllocError> {
        let mut vec = Vec::new();
        vec.try_reserve_exact(capacity)?;
        Ok(vec)
    }

    fn from_slice(items: &[T]) -> Result<Self, AllocError>
    where
        T: Copy,
    {
        let mut vec = Vec::with_reserved(items.len())?;
        vec.try_extend_from_slice(items)?;
        Ok(vec)
    }

    fn filled(item: T, count: usize) -> Result<Self, AllocError>
    where
        T: Copy,
    {
        let mut vec = Vec::with_reserved(count)?;
        vec.try_resize(count, item)?;
        Ok(vec)
    }

    fn push_reserved(&mut self, item: T) {
        assert!(self.len() < self.capacity());
        self.push(item);
    }

    fn try_push(&mut self, value: T) -> Result<(), AllocFailed<T>> {
        if self.try_reserve(1).is_err() {
            return Err(AllocFailed { value });
        }
        self.push(value);
        Ok(())
    }

    fn try_insert(&mut self, index: usize, value: T) -> Result<(), AllocFailed<T>> {
        self.try_push(value)?;
        self[index..].rotate_right(1);
        Ok(())
    }

    fn try_extend_from_slice(&mut self, items: &[T]) -> Result<(), AllocError>
    where
        T: Copy,
    {
        self.try_reserve(items.len())?;
        self.extend_from_slice(items);
        Ok(())
    }

    fn try_resize(&mut self, count: usize, item: T) -> Result<(), AllocError>
    where
        T: Copy,
    {
        self.try_reserve(count.saturating_sub(self.len()))?;
        self.resize(count, item);
        Ok(())
    }
}

/// Returns a vector with an item a number of times, or an error: `try_vec![item; count]`.
macro_rules! try_vec {
    ($item:expr; $count:expr) => {
        $crate::kit::prelude::Vec::filled($item, $count)
    };
}
pub(crate) use try_vec;

#[cfg(all(test, not(feature = "alloc")))]
#[test]
fn without_a_heap_each_allocation_fails() {
    let mut vec = Vec::new();
    for count in [1, 2, 9] {
        assert_eq!(vec.try_extend_from_slice(&[7u8; 9][..count]), Err(AllocError));
        assert_eq!(vec.try_resize(count, 7), Err(AllocError));
        assert_eq!(Vec::<u8>::with_reserved(count), Err(AllocError));
    }
    assert!(vec.try_push(7).is_err() && vec.try_insert(0, 7).is_err());
}

#[cfg(all(test, feature = "alloc"))]
#[test]
fn items_are_inserted() {
    for index in 0..5 {
        let (mut vec, mut expected) = (Vec::from([1, 2, 3, 4]), Vec::from([1, 2, 3, 4]));
        expected.insert(index, 9);
        assert!(vec.try_insert(index, 9).is_ok());
        assert_eq!(vec, expected);
    }
}
