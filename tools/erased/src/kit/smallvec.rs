//! `SmallVec`, which stores up to `N` items without an allocation.

use super::heap;
use super::memory::AllocError;
use super::prelude::{TryVec, Vec};
use super::std::default::MadeWith;
use core::mem::replace;
use core::ops::{Deref, DerefMut};

/// A vector that stores up to `N` items inline. Slots that are not used have a value too, that of
/// `MadeWith`.
pub struct SmallVec<T, const N: usize>(Data<T, N>);

enum Data<T, const N: usize> {
    /// The slots, and how many of them are used.
    Inline([T; N], usize),
    Heap(Vec<T>),
}
use Data::{Heap, Inline};

impl<T: MadeWith, const N: usize> SmallVec<T, N> {
    /// Returns an empty vector, without an allocation.
    pub fn new() -> Self {
        SmallVec(Inline([const { T::MADE }; N], 0))
    }

    /// Returns an empty vector with this capacity. Allocates only if it is above `N`.
    pub fn with_reserved(capacity: usize) -> Result<Self, AllocError> {
        let mut vec = Self::new();
        vec.try_reserve_exact(capacity)?;
        Ok(vec)
    }

    /// Reserves capacity for `count` more items. An allocation that fails changes nothing.
    pub fn try_reserve_exact(&mut self, count: usize) -> Result<(), AllocError> {
        if self.capacity() - self.len() >= count {
            return Ok(());
        }
        match &mut self.0 {
            Heap(items) => Ok(items.try_reserve_exact(count)?),
            Inline(slots, used) => {
                let mut items = Vec::with_reserved(used.checked_add(count).ok_or(AllocError)?)?;
                for slot in &mut slots[..*used] {
                    items.push_reserved(replace(slot, T::MADE));
                }
                self.0 = Heap(items);
                Ok(())
            }
        }
    }

    /// Drops the items, and keeps the capacity.
    pub fn clear(&mut self) {
        match &mut self.0 {
            Heap(items) => items.clear(),
            Inline(slots, used) => {
                slots[..*used].fill_with(|| T::MADE);
                *used = 0;
            }
        }
    }

    /// Appends an item. Panics if an allocation fails.
    pub fn push(&mut self, item: T) {
        let more = if self.len() == self.capacity() { self.len().max(1) } else { 0 };
        self.try_reserve_exact(more).expect("out of memory");
        self.push_reserved(item);
    }
}

#[cfg(feature = "alloc")]
impl<T: MadeWith, const N: usize> SmallVec<T, N> {
    /// Inserts an item before the one at `index`. Panics if the index is above the number of items,
    /// or if an allocation fails.
    pub fn insert(&mut self, index: usize, item: T) {
        assert!(index <= self.len());
        self.push(item);
        self[index..].rotate_right(1);
    }

    /// Removes the last item.
    pub fn pop(&mut self) -> Option<T> {
        match &mut self.0 {
            Heap(items) => items.pop(),
            Inline(slots, used) => {
                *used = used.checked_sub(1)?;
                Some(replace(&mut slots[*used], T::MADE))
            }
        }
    }

    /// Removes the item at `index`. Panics if there is none.
    pub fn remove(&mut self, index: usize) -> T {
        self[index..].rotate_left(1);
        self.pop().unwrap()
    }

    /// Drops the items after the first `count`.
    pub fn truncate(&mut self, count: usize) {
        while self.len() > count {
            self.pop();
        }
    }

    /// Keeps the items for which the function returns `true`.
    pub fn retain<F: FnMut(&mut T) -> bool>(&mut self, mut is_kept: F) {
        let mut kept = 0;
        for index in 0..self.len() {
            if is_kept(&mut self[index]) {
                self.swap(kept, index);
                kept += 1;
            }
        }
        self.truncate(kept);
    }

    /// Returns the items as a vector, which needs an allocation if they are inline.
    pub fn into_vec(self) -> Vec<T> {
        match self.0 {
            Heap(items) => items,
            inline => SmallVec(inline).into_iter().collect(),
        }
    }
}

impl<T, const N: usize> SmallVec<T, N> {
    /// Appends an item. There must be capacity for it.
    pub fn push_reserved(&mut self, item: T) {
        match &mut self.0 {
            Heap(items) => items.push_reserved(item),
            Inline(slots, used) => {
                slots[*used] = item;
                *used += 1;
            }
        }
    }

    /// Returns the number of items for which no allocation is needed.
    pub fn capacity(&self) -> usize {
        match &self.0 {
            Heap(items) => items.capacity(),
            Inline(..) => N,
        }
    }

    /// Returns whether the items are on the heap.
    pub fn spilled(&self) -> bool {
        matches!(self.0, Heap(_))
    }

    /// Returns the items.
    pub fn as_slice(&self) -> &[T] {
        match &self.0 {
            Heap(items) => items,
            Inline(slots, used) => &slots[..*used],
        }
    }
}

impl<T: MadeWith, const N: usize> Default for SmallVec<T, N> {
    fn default() -> Self {
        SmallVec::new()
    }
}

impl<T: PartialEq, const N: usize> PartialEq for SmallVec<T, N> {
    fn eq(&self, other: &Self) -> bool {
        self.as_slice() == other.as_slice()
    }
}

impl<T: Eq, const N: usize> Eq for SmallVec<T, N> {}

impl<T: MadeWith + Clone, const N: usize> Clone for SmallVec<T, N> {
    fn clone(&self) -> Self {
        self.iter().cloned().collect()
    }
}

impl<T: core::fmt::Debug, const N: usize> core::fmt::Debug for SmallVec<T, N> {
    fn fmt(&self, f: &mut core::fmt::Formatter<'_>) -> core::fmt::Result {
        self.as_slice().fmt(f)
    }
}

impl<T, const N: usize> Deref for SmallVec<T, N> {
    type Target = [T];

    fn deref(&self) -> &[T] {
        self.as_slice()
    }
}

impl<T, const N: usize> DerefMut for SmallVec<T, N> {
    fn deref_mut(&mut self) -> &mut [T] {
        match &mut self.0 {
            Heap(items) => items,
            Inline(slots, used) => &mut slots[..*used],
        }
    }
}

impl<T: MadeWith, const N: usize> Extend<T> for SmallVec<T, N> {
    fn extend<I: IntoIterator<Item = T>>(&mut self, items: I) {
        for item in items {
            self.push(item);
        }
    }
}

impl<T: MadeWith, const N: usize> FromIterator<T> for SmallVec<T, N> {
    fn from_iter<I: IntoIterator<Item = T>>(items: I) -> Self {
        let mut vec = SmallVec::new();
        vec.extend(items);
        vec
    }
}

impl<T: MadeWith, const N: usize, const M: usize> From<[T; M]> for SmallVec<T, N> {
    fn from(items: [T; M]) -> Self {
        items.into_iter().collect()
    }
}

impl<T: MadeWith, const N: usize> From<Vec<T>> for SmallVec<T, N> {
    fn from(items: Vec<T>) -> Self {
        items.into_iter().collect()
    }
}

/// The items of a [`SmallVec`], by value.
pub enum IntoIter<T, const N: usize> {
    Inline(core::iter::Take<core::array::IntoIter<T, N>>),
    Heap(heap::IntoIter<T>),
}

impl<T, const N: usize> Iterator for IntoIter<T, N> {
    type Item = T;

    fn next(&mut self) -> Option<T> {
        match self {
            IntoIter::Inline(items) => items.next(),
            IntoIter::Heap(items) => items.next(),
        }
    }

    fn size_hint(&self) -> (usize, Option<usize>) {
        match self {
            IntoIter::Inline(items) => items.size_hint(),
            IntoIter::Heap(items) => items.size_hint(),
        }
    }
}

impl<T, const N: usize> DoubleEndedIterator for IntoIter<T, N> {
    fn next_back(&mut self) -> Option<T> {
        match self {
            IntoIter::Inline(items) => items.next_back(),
            IntoIter::Heap(items) => items.next_back(),
        }
    }
}

impl<T, const N: usize> ExactSizeIterator for IntoIter<T, N> {}

impl<T, const N: usize> IntoIterator for SmallVec<T, N> {
    type Item = T;
    type IntoIter = IntoIter<T, N>;

    fn into_iter(self) -> IntoIter<T, N> {
        match self.0 {
            Inline(slots, used) => IntoIter::Inline(slots.into_iter().take(used)),
            Heap(items) => IntoIter::Heap(items.into_iter()),
        }
    }
}

impl<'a, T, const N: usize> IntoIterator for &'a SmallVec<T, N> {
    type Item = &'a T;
    type IntoIter = core::slice::Iter<'a, T>;

    fn into_iter(self) -> Self::IntoIter {
        self.iter()
    }
}

impl<'a, T, const N: usize> IntoIterator for &'a mut SmallVec<T, N> {
    type Item = &'a mut T;
    type IntoIter = core::slice::IterMut<'a, T>;

    fn into_iter(self) -> Self::IntoIter {
        self.iter_mut()
    }
}

/// Returns a [`SmallVec`] with these items.
#[macro_export]
macro_rules! smallvec {
    ($($item:expr),* $(,)?) => {
        $crate::SmallVec::from([$($item),*])
    };
    ($item:expr; $count:expr) => {
        ::core::iter::repeat($item).take($count).collect::<$crate::SmallVec<_, 8>>()
    };
}
