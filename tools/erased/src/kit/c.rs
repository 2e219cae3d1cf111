//! Types with the layout of C.

use core::marker::PhantomData;

/// A slice in a struct of C: a pointer and a length.
#[repr(C)]
#[derive(Clone, Copy)]
pub struct Bytes<'a> {
    start: *const u8,
    length: usize,
    borrowed: PhantomData<&'a [u8]>,
}

impl<'a> Bytes<'a> {
    pub fn of(bytes: &'a [u8]) -> Self {
        Bytes {
            start: bytes.as_ptr(),
            length: bytes.len(),
            borrowed: PhantomData,
        }
    }
}
