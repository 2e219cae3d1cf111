//! `Box` and `String` with allocations that may fail.

#[cfg(feature = "alloc")]
use super::heap::Box;
use super::heap::String;
use super::memory::{AllocError, AllocFailed};

/// The functions of Rattle's `Box` that allocate or take the value out.
pub trait TryBox<T>: Sized {
    /// Returns a box with the value. If its allocation fails, Rust ends the process: it has no
    /// stable function that returns the error.
    fn try_box(value: T) -> Result<Self, AllocFailed<T>>;

    /// Returns the value in a box.
    fn unbox(boxed: Self) -> T;
}

#[cfg(feature = "alloc")]
impl<T> TryBox<T> for Box<T> {
    fn try_box(value: T) -> Result<Self, AllocFailed<T>> {
        Ok(Box::new(value))
    }

    fn unbox(boxed: Self) -> T {
        *boxed
    }
}

/// The functions of Rattle's `String` that allocate.
pub trait TryString: Sized {
    /// Returns a copy of the text. An empty one needs no memory.
    fn try_from_str(text: &str) -> Result<Self, AllocError>;

    /// Appends a text. If this fails, it changes nothing.
    fn try_push_str(&mut self, text: &str) -> Result<(), AllocError>;

    /// Appends a character. If this fails, it changes nothing.
    fn try_push(&mut self, c: char) -> Result<(), AllocError>;
}

impl TryString for String {
    fn try_from_str(text: &str) -> Result<Self, AllocError> {
        let mut string = String::new();
        string.try_reserve_exact(text.len())?;
        string.push_str(text);
        Ok(string)
    }

    fn try_push_str(&mut self, text: &str) -> Result<(), AllocError> {
        self.try_reserve(text.len())?;
        self.push_str(text);
        Ok(())
    }

    fn try_push(&mut self, c: char) -> Result<(), AllocError> {
        self.try_push_str(c.encode_utf8(&mut [0; 4]))
    }
}
